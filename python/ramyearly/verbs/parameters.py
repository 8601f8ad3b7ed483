"""The parameters of a site as options of the verbs. They stand in no file of the folder."""

from ..parameters import Parameters
from ..reasons import listed
from .folders import number

# Of each parameter its value in the examples, and what it does.
OPTIONS = {
    "highest": (3, "allow only the lowest N running levels, 1 to their number (all if left out)"),
    "free": (20, "keep N ticks free before each deadline, 0 to 1,000,000 (0 if left out)"),
    "margin": (15, "put N percent on each job's cycles, rounded up, 0 to 100 (0 if left out)"),
}
ALTERED = """

{names} alter the tables of a site, as is said below, before anything else is
done: what is done and printed is about the altered tables. A plan goes with the numbers that it was
made with. These stand in no file, and those left out alter nothing. For example:

  {example}"""

# For the listing, which has no such options.
NOT_ALTERED = """

The listing uses all running levels, 0 free ticks and a margin of 0, and takes no --highest, --free or
--margin."""


def add_parameters(parser, names=tuple(OPTIONS), before_options="DIR"):
    """The parser with an option for each of these parameters, which its description explains with an example."""
    example = " ".join([parser.prog, before_options, *(f"--{name} {OPTIONS[name][0]}" for name in names)])
    parser.description += ALTERED.format(names=listed(f"--{name}" for name in names), example=example)
    for name in names:
        default, said = Parameters._field_defaults[name], OPTIONS[name][1]
        parser.add_argument(f"--{name}", metavar="N", type=number(name), default=default, help=said)
    return parser


def parameters_of(options):
    """The parameters among the options of a verb. One that it does not take alters nothing."""
    return Parameters(**{name: value for name, value in vars(options).items() if name in OPTIONS})
