"""The assessors' reading order: stages, answers, and a strict table's files."""

from irvtools.docs import definitions
from irvtools.docs.definitions import RULES

# stages with named definitions; the list has the files of the others
NAMED_STAGES = (2, 3, 4)
# the topics of the stages, in order
ABOUT = (
    "Answers to arguments and bytes, with exit statuses, and the effects on sources and sinks.",
    "Right verdicts, and the meaning of `safe` for runs of any length.",
    "Runs, the conditions and effects of each event, hazards, and the nine families.",
    "Plants and their states: initial state, shape (which states are well-formed), neighbours.",
    "The plant that bytes give, and the rules F, N, R and C that a configuration breaks.",
    "Reading and writing of runs, and the answer of a replay.",
    "The meaning of the arguments; `clap` has its own definition of how it reads them.",
    "Sources and sinks, and how they count faults.",
    "The commands of a scenario, and their effects.",
    "The paths of a network, the route of each path, and the networks without a table.",
    "The sections and routes of a line of stations.",
    "The text of a configuration.",
    "The text of a formula, and its satisfying assignments.",
    "The queries of a certificate, the refutation of each query, and the grammar of the lines.",
    "The lines of a certificate in order, and the first wrong line.",
    "The items of another solver's text, and the first wrong item.",
    "The text written for a verdict, and spent texts.",
    "The formula of a query, from the plant to the clauses. No answer needs this part.",
)
# first definitions of some answers, besides those of the module `definitions`
TABLE = [("ilk_answers.specs.Tables", "ReplyHasValidNetworkTable")]
FORMULA = [
    ("ilk_dimacs.specs.DimacsText", "dimacs_text"),
    ("ilk_unroll.specs.Satisfied", "IsSatisfiable"),
]
DRIVE = [("ilk_answers.specs.Drives", "AnswersScenarioText")]
REPLAY = [
    ("ilk_answers.specs.Answer", "replay_or_bad_line_reply"),
    ("ilk_replay.specs.Told", "run_from_text"),
    ("ilk_replay.specs.Seen", "replay_result"),
]
# The reading plan's answers. Each has the needed parts of the list besides part 1, its first
# definitions, and the omissions. Part 5 only says how bytes become the plant.
ANSWERS = (
    ("`clean` of `check` with strict columns", "2 to 5", definitions.CLEAN, RULES),
    ("`accepted` of `audit`", "2 to 5", definitions.FOREVER + definitions.PLANT, RULES),
    (
        "output of `table` with strict columns",
        "2 to 5; also 10, to know that no route is missing",
        TABLE + definitions.PLANT,
        RULES,
    ),
    (
        "`safe`, `unsafe`, `breach`, `not inductive` of `verify`",
        "2 to 5; also 6, for the printed run",
        definitions.VERDICT + definitions.PLANT,
        RULES,
    ),
    (
        "output of `demo`",
        "2 to 4, 11",
        definitions.VERDICT + [("ilk_answers.specs.Made", "stations_plant")],
        RULES,
    ),
    ("`refuted` of `rup`", "2 to 5", definitions.EVENTS + definitions.PLANT, RULES),
    (
        "`refuted` for each query that `safe` depends on",
        "2 to 5",
        definitions.FOREVER + definitions.EVENTS + definitions.EVIDENCE + definitions.PLANT,
        RULES,
    ),
    (
        "formula of `export`",
        "2 to 5, 13",
        FORMULA + definitions.EVENTS + definitions.PLANT,
        RULES | definitions.FORMULA,
    ),
    (
        "`driven`, `stuck`, `hazard` of `drive`",
        "3 to 5, 9; also 6, for the printed run",
        DRIVE + definitions.PLANT,
        RULES,
    ),
    ("`hazard`, `no hazard`, `not a run` of `replay`", "3 to 6", REPLAY + definitions.PLANT, RULES),
)
# a strict table's files in reading order, by step: paths below crates/ without endings
STEPS = (
    (
        "Meaning of `clean`",
        "ilk_answers/specs/Strict ilk_forever/specs/Forever ilk_model/specs/Meets"
        " ilk_model/specs/Run",
    ),
    (
        "The plant",
        "ilk_plant/src/network ilk_plant/src/table ilk_base/src/row ilk_plant/specs/Plant"
        " ilk_plant/specs/Network ilk_plant/specs/TableRules",
    ),
    (
        "The plant's states",
        "ilk_plant/src/state ilk_plant/specs/Start ilk_plant/specs/State ilk_plant/specs/Shape",
    ),
    ("Hazards", "ilk_model/src/hazards ilk_model/specs/Hazard ilk_motion/specs/Ahead"),
    (
        "Events of routes and points",
        "ilk_model/src/event ilk_model/specs/Event ilk_routes/specs/Routes"
        " ilk_routes/specs/Points ilk_routes/specs/Modes ilk_routes/specs/Boards"
        " ilk_routes/specs/Locks ilk_routes/specs/Lies ilk_routes/specs/Claims",
    ),
    ("Events of trains", "ilk_motion/specs/Trains ilk_motion/specs/Body"),
    (
        "From bytes to a plant or refusals",
        "ilk_answers/specs/Answer ilk_answers/specs/Stages"
        " ilk_answers/src/refusals ilk_words/src/plan ilk_words/src/lengths ilk_words/src/command"
        " ilk_net_read/src/fault ilk_net_read/specs/Fault",
    ),
    (
        "From bytes to drafts",
        "ilk_net_read/specs/Network ilk_net_read/specs/Document ilk_net_read/src/version"
        " ilk_net_read/specs/Version ilk_net_read/specs/Member ilk_net_read/specs/Section"
        " ilk_table_read/specs/Table ilk_table_read/specs/Route ilk_tablegen/specs/Rules",
    ),
    (
        "From drafts to the plant",
        "ilk_plant/src/draft ilk_plant/specs/Draft ilk_plant/specs/Name"
        " ilk_plant/specs/Words ilk_plant/specs/Limits ilk_plant/src/limits ilk_plant/src/broken",
    ),
    (
        "Small helpers",
        "ilk_base/specs/Option ilk_base/specs/Result ilk_base/specs/Numbers"
        " ilk_base/specs/Numbered ilk_base/specs/Each ilk_base/specs/Words",
    ),
    (
        "The nine families (need not be believed)",
        "ilk_model/specs/Families ilk_model/specs/Holding"
        " ilk_model/specs/Commanded ilk_plant/specs/ColumnRules",
    ),
)
