/* GLPK's primal simplex, which is faster here than the dual one. Rows: a job's shares add to its cycles; an interval's
 * shares add to what its bands take. */
#include "peer.h"

#include <glpk.h>
#include <math.h>

static glp_prob *model;
static const struct network *net;

static void load(const struct network *w)
{
    int rows[3], column = 0;
    double values[] = { 0, 1, 1 };
    net = w;
    glp_term_out(GLP_OFF);
    model = glp_create_prob();
    glp_add_rows(model, w->jobs + w->intervals);
    glp_add_cols(model, w->pairs + w->intervals * w->bands);
    for (int i = 0; i < w->intervals; i++) {
        for (int k = 0; k < w->bands; k++) {
            rows[1] = w->jobs + i + 1;
            values[1] = -1;
            glp_set_mat_col(model, ++column, 1, rows, values);
            glp_set_col_bnds(model, column, GLP_DB, 0, (double)(w->size[i] * w->gap[k]));
            glp_set_obj_coef(model, column, (double)w->rise[k] / (double)w->gap[k]);
        }
        glp_set_row_bnds(model, w->jobs + i + 1, GLP_FX, 0, 0);
    }
    values[1] = 1;
    for (int j = 0; j < w->jobs; j++) {
        for (int i = w->first[j]; i < w->last[j]; i++) {
            rows[1] = j + 1;
            rows[2] = w->jobs + i + 1;
            glp_set_mat_col(model, ++column, 2, rows, values);
            glp_set_col_bnds(model, column, GLP_LO, 0, 0);
        }
        glp_set_row_bnds(model, j + 1, GLP_FX, (double)w->cycles[j], 0);
    }
}

static void reset(void)
{
    glp_std_basis(model);
}

static int solve(void)
{
    glp_smcp options;
    glp_init_smcp(&options);
    options.msg_lev = GLP_MSG_OFF;
    options.meth = GLP_PRIMAL;
    return glp_simplex(model, &options) == 0 && glp_get_status(model) == GLP_OPT;
}

static void answer(struct totals *t)
{
    for (int k = 0; k < net->bands; k++) {
        double sum = 0;
        for (int i = 0; i < net->intervals; i++)
            sum += glp_get_col_prim(model, i * net->bands + k + 1);
        t->band[k] = llround(sum);
    }
}

static void unload(void)
{
    glp_delete_prob(model);
}

const struct peer glpk_peer = { "GLPK", load, reset, solve, answer, unload };
