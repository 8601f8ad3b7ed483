/* CLP's primal simplex, which is faster here than the dual one, on the same rows and columns as GLPK's. */
#include "peer.h"

#include <coin/Clp_C_Interface.h>
#include <math.h>
#include <stdlib.h>

enum { MAX_COLUMNS = MAX_PAIRS + MAX_INTERVALS * MAX_LEVELS };

static Clp_Simplex *model;
static const struct network *net;
static CoinBigIndex start[MAX_COLUMNS + 1];
static int row[2 * MAX_COLUMNS], columns;
static double value[2 * MAX_COLUMNS], upper[MAX_COLUMNS], cost[MAX_COLUMNS], wanted[MAX_JOBS + MAX_INTERVALS];

static void load(const struct network *w)
{
    int entries = 0;
    net = w;
    columns = 0;
    for (int i = 0; i < w->intervals; i++) {
        wanted[w->jobs + i] = 0;
        for (int k = 0; k < w->bands; k++) {
            start[columns] = entries;
            row[entries] = w->jobs + i;
            value[entries++] = -1;
            upper[columns] = (double)(w->size[i] * w->gap[k]);
            cost[columns++] = (double)w->rise[k] / (double)w->gap[k];
        }
    }
    for (int j = 0; j < w->jobs; j++) {
        wanted[j] = (double)w->cycles[j];
        for (int i = w->first[j]; i < w->last[j]; i++) {
            start[columns] = entries;
            row[entries] = j;
            value[entries++] = 1;
            row[entries] = w->jobs + i;
            value[entries++] = 1;
            upper[columns] = HUGE_VAL;
            cost[columns++] = 0;
        }
    }
    start[columns] = entries;
}

static void unload(void)
{
    if (model)
        Clp_deleteModel(model);
    model = NULL;
}

/* The model keeps its last basis, so it is made anew. */
static void reset(void)
{
    unload();
    model = Clp_newModel();
    Clp_setLogLevel(model, 0);
    Clp_loadProblem(model, columns, net->jobs + net->intervals, start, row, value, NULL, upper, cost, wanted, wanted);
}

static int solve(void)
{
    return Clp_primal(model, 0) == 0 && Clp_status(model) == 0;
}

static void answer(struct totals *t)
{
    const double *flow = Clp_getColSolution(model);
    for (int k = 0; k < net->bands; k++) {
        double sum = 0;
        for (int i = 0; i < net->intervals; i++)
            sum += flow[i * net->bands + k];
        t->band[k] = llround(sum);
    }
}

const struct peer clp_peer = { "CLP", load, reset, solve, answer, unload };
