#!/usr/bin/env python3
"""Writes DEFINITIONS.md and its further pages: what has to be believed, from the comments of the specifications.

Run it anywhere: python3 docs/definitions.py. With --check it writes nothing and ends with status 1
if a page isn't what it would write.

A definition's words are the comment above it, and its clause of the standard the parenthesis at the
end of that comment. Each page has sections with their files, and in each file the helpers that are left
out, or the definitions that are listed, behind a +. SHOWN names the definitions that are printed whole.
One name has one meaning: a name that two files define is on no page twice.
"""

import pathlib
import re
import sys
import textwrap

HERE = pathlib.Path(__file__).resolve().parent
CRATES = HERE.parent / "crates"
DEFINITION = re.compile(r"^(?:abbrev |unfoldable )?pub (?:data |record |abbrev )?([^\s:({]+)")
# One in a module, whose names it shares.
WITHIN = re.compile(r"^  (?:(?:abbrev |unfoldable )pub |pub record )([^\s:({]+)")
STANDARD = re.compile(r"\s*\(((?:06-10[34]r4|SQL|clause|this project's choice)[^()]*(?:\([^()]*\)[^()]*)*)\)$")
CHOICE = "this project's choice"

G, T = "geometry_model", "table_model"
# Sections: a title, a sentence or two, and files with the names that they leave out.
PAGE = [
    ("Points and geometries",
     "A point of the plane is a triple of whole numbers X, Y, W with W at least 1. It means (X/W, Y/W).",
     [(G, "Points", "point_at compare_x compare_y compare mediant IsLeast last_divisor gcd divided least_form"),
      (G, "Geometries", "type_of kind_of_type joined_rings positions edges_of_lines"),
      (G, "Sides", "between on_one_line"),
      (G, "Crossings", "reaches exactly_one odd at_or_above odd_at_or_above")]),
    ("Interior, boundary and exterior",
     "The three sets are said twice: as facts about a point in the standard's words, and as the function"
     " `locate`. The law `parts_are_located` proves that both agree.",
     [(G, "PointSets", ""),
      (G, "Locations", "is_at last_after on_some is_odd_end in_points in_lines in_rings")]),
    ("Dimension and the DE-9IM matrix",
     "The dimension of a set of points is that of the largest piece that it holds: a triangle, a segment,"
     " a point, nothing.",
     [(G, "Dimensions", "weighted_three matrix_of transposed"),
      (G, "GivenMatrix", "")]),
    ("Patterns and predicates",
     "A predicate is a set of patterns, chosen by the kinds of the two geometries.",
     [(G, "Patterns", "character_of characters_of pattern_of dimension_character"),
      (G, "Predicates", "like wants_point wants_common_point forces_meeting")]),
    ("Validity",
     "Each fault, V1 to V8, is a fact about rational points. A geometry without fault is valid. Of several the first by"
     " `in_order` is reported.",
     [(G, "Validity", "Element elements_from numbered_elements IsRing"),
      (G, "FirstFaults", "+numbers of_pairs of_every_two of_elements in_order validity_fault")]),
    ("Well-known text",
     "A relation for each rule, between a text and what it spells. Refusals are stated"
     " without a reader, by the bytes before them.",
     [(G, "WellKnownText", "begins_with Blank Space Padded Enclosed Separated is_white Byte Rule"
       " same_position written_positions written_parts Begins"),
      (G, "TextRefusals", "TakesNumber begins_more IsFirstNumber"),
      (G, "CanonicalText", "listed_text line_text polygon_text"),
      (G, "CheckedTexts", "valid_or tested")]),
    ("Tokens and schemas",
     "A schema is a list of lawful tables. A relation for each rule of its grammar, and the faults S5, S2, S4 and S3.",
     [(T, "Texts", "+same_name"),
      (T, "Phrases", "+IsToken IsWord IsOptional IsParts"),
      (T, "Tokens", "same_kind is_in_line kind_in word_kind symbol_of_one symbol closing string_to string"
       " front text_of at_front tokens_from text_place IsSlice"),
      (T, "SchemaGrammar", "IsNamed IsMark Marked key_places ReturnsSchema IsNotNull IsPrimaryKey"),
      (T, "Definitions", "is_integer column_names"),
      (T, "SchemaRefusals", "Written IsColumn IsCreateTable IsWritten BeforeTable BeforeColumns BeforeColumn"
       " BeforeKey BeforeClose IsName is_among has_key names_of AppliesAt AppliesIn is_at_token")]),
    ("Queries",
     "A relation for each rule, between a tree and its tokens; then the faults Q10 and Q12.",
     [(T, "QueryReading", "+most_levels"),
      (T, "QueryGrammar", "IsDigits IsCall IsOperandFunction IsNumber IsPair IsPredicate IsChain IsCondition"
       " IsNegation IsRowCount IsCrossed IsJoined IsItemFunction ReturnsQuery"),
      (T, "QueryRefusals", "IsAnyInteger IsAnyOperand IsAnyNegation IsAnyCondition BeforeSecond BeforeOn"
       " ThroughFrom BeforeWhere IsAnyWhere BeforeLimit AreParts BeforeNegation BeforeOperand AppliesAt"
       " AppliesIn is_at_token")]),
    ("Binding: what names mean",
     "Rules say what each name, condition and query is bound to, and where it is refused. Laws prove that the"
     " functions that contracts name follow them.",
     [(T, "BindingRules", "IsColumnNamed IsNowhere IsSomewhere IsTwice IsFirst IsOnly Then FirstFault AreOneName"
       " IsBoundPredicate IsRefusedPredicate IsRefusedOperand GeometryRules IsGeometryPart"),
      (T, "QueryRules", "IsTableNamed IsTaken IsFromAfter IsRefusedAfter IsThere AppliesBefore IsListed"
       " AreInOrder IsRefusedWhole IsWhole")]),
    ("Tables and loading",
     "A record is a list of fields, each some bytes. Loading gives the typed rows by ascending key, or the"
     " first fault.",
     [(T, "FeatureTables", ""),
      (T, "GeometryColumns", "takes_type of_shape literal bound_argument bound_place pattern_or bound_pattern"
       " geometry_binding"),
      (T, "Loading", "GeometryReader and_then unless each is_space_or_tab trimmed number_in place_in"
       " field_under first_fault whole_number double_from insert_by_key keyed_rows rows_of filled_value is_number values_of"),
      (T, "Databases", "at_table fits_type fits_columns loaded_tables"),
      ("feature_table", "Records", "+records_in"),
      ("feature_table", "Tables", "+AreRecordsOf EachRecordsOf EarlierLoad")]),
    ("Truth and meaning",
     "Truth has three values. The meaning of a query is the rows of the product of its tables at which ON"
     " and WHERE are true.",
     [(T, "Truths", "truth_of order_of text_value dimension_value"),
      (T, "Arguments", ""),
      (T, "Meanings", "passing_rows all_true")]),
    ("The answer and its outcome",
     "The records of the answer, their text, and what a run gives in place of an answer.",
     [(T, "AnswerTexts", "Writing name_of column_name reference_header column_header"),
      (T, "RunOutcomes", "RecordText counted_text answer_text after"),
      ("query_runs", "RecordTexts", ""),
      ("query_runs", "Runs", "rows_text bound_text rows_of_choices choice_text count_text planned_work planned_text"
       " answer_work query_work loaded_work work_outcome IsReached RefusesTable none_reached Counts IsOfTables"
       " PutsFront ReturnsQuery CountsQuery"),
      (T, "Outcomes", ""),
      ("streams", "Sinks", "+AppendsFront"),
      (T, "FaultLines", "memory_text")]),
    ("Plans and work",
     "Only EXPLAIN and EXPLAIN ANALYZE show these. The rows of an answer don't depend on them.",
     [(T, "Plans", "can_search expected_rows first_of_least is_column_of is_known places_where access_methods accesses_of nested predicates_by_parts"
       " possible_counts plan_of row_counts"),
      (T, "Work", "candidate_work keeps_order computed_by_parts computes is_as_text as_text_by_parts has_as_text filters_of passes_filters"
       " work_of up_to_passing candidates_to_row work_to_row counted"),
      (T, "ExplainTexts", "conjunct_number line count_line limit_line method_text access_lines filters_text")]),
]
WHY = [
    ("What shows a cell of a matrix",
     "`find_witnesses` returns a [`Witness`](../crates/witnesses/src/witness.rt) for each part of one geometry and each"
     " part of the other: a point, an open stretch, a face point, or nothing. The laws `stretch_has_segment` and"
     " `face_point_has_triangle` prove that a stretch shows the dimension 1 and a face point 2.",
     [("geometry_laws", "PieceLaws", "+IsOff"),
      ("matrix_laws", "Witnessing", "+IsStrictlyBetween HoldsStretch IsFacePoint"),
      ("witnesses", "Shown", "+witness_at shown_dimension shown_matrix IsShownBy ShowsAll")]),
    ("What shows a fault",
     "`place_of` returns a [`Place`](../crates/witnesses/src/places.rt) of a fault, and `verdict_of` the first fault of a"
     " text's geometry with its place. Two edges share a [`Meet`](../crates/noding/src/answers.rt).",
     [("noding", "Meetings", "named is_common_cut NamesCommonCuts"),
      ("witnesses", "Places", "+IsClashOf IsMeetingOf"),
      ("witnesses", "FaultPlaces", "IsMeetingWithOne MeetsOne"),
      ("witnesses", "Verdicts", "IsFirstFaultIn")]),
    ("Which is the first",
     "If a cell has several witnesses, `find_witnesses` returns the first, by the ascending order of the cut points and pieces of both"
     " geometries. If a fault has several places, `place_of` returns the first, by the order of rings and edges.",
     [("geometry_model", "CutPoints", "+cut_points"),
      ("geometry_model", "Pieces", "+Piece pieces sample"),
      ("geometry_model", "Labels", "+below above SideLabels side_labels Labels edges_of_both cuts_of_both is_pair is_side_pair labels"),
      ("side_labels", "Noding", "+pieces_of_both"),
      ("geometry_laws", "CoverLaws", "+IsStraightOver IsLower"),
      ("geometry_laws", "FaceLaws", "+IsOnTheWayUp IsOnTheWayDown SeesUp SeesDown"),
      ("witnesses", "FarPoints", "+Reaches"),
      ("witnesses", "FirstWitnesses", ""),
      ("witnesses", "Places", "+ClashesWith IsFirstClashWith IsFirstClash MeetsWith IsFirstMeetingWith IsFirstMeeting"),
      ("witnesses", "FirstPlaces", "")]),
    ("The lines that are written",
     "Nine lines of witnesses, or one of a verdict. A coordinate is a fraction in least form.",
     [("witnesses", "PointTexts", "piece_text"),
      ("witnesses", "WitnessTexts", ""),
      ("witnesses", "FaultTexts", ""),
      ("witnesses", "VerdictTexts", "")]),
]
LIBRARY = [
    ("Texts",
     "What calls that take texts return of them.",
     [("library_calls", "Texts", "")]),
    ("Arrays",
     "A geometry as arrays: the number of its type, all positions one after another, and the sizes of its parts.",
     [("library_calls", "Written", ""),
      ("library_calls", "Arrays", ""),
      ("library_calls", "ArrayLaws", "")]),
    ("Kept geometries",
     "What calls return of geometries that the caller keeps, and what is owned of them.",
     [("library_calls", "Kept", "position"),
      ("library_calls", "Numbers", ""),
      ("library_calls", "Keeping", "")]),
    ("Indexes of envelopes",
     "An index is made of the four bounds of each envelope, and a search finds the envelopes that meet a window.",
     [(G, "Envelopes", "with_position"),
      ("rtree", "Found", ""),
      ("library_calls", "Indexes", "")]),
    ("Doubles and grids",
     "A double is a whole number of the least double above 0, so its exact value is one number. A grid turns it into a coordinate.",
     [("wkb", "Doubles", "exponent trailing with_sign"),
      ("wkb", "Grids", ""),
      ("library_calls", "Rounding", "")]),
    ("Well-known binary",
     "Each reader reads a part of the bytes, one after another. A call reads them, then checks the geometry.",
     [("wkb", "BinaryReading", "+number_of type_of_code has_system head is_empty_pair placed located settle element point lone read_binary rounding_of"),
      ("wkt", "ReadingSteps", "+repeats"),
      ("library_calls", "Binaries", "+grid_in IsGrid unread_of valid_binary IsReadAs notes_of IsReadFrom IsRefusedBinary")]),
    ("Well-known binary taken apart",
     "The doubles of well-known binary as they are, and the sizes of its parts, before there is a grid and without limits; and their extent.",
     [("wkb", "BinaryPieces", "+Pieces line_onto point_content line_content polygon_content member body_pieces pieces_in code_or_none"),
      ("wkb", "Extents", ""),
      ("library_calls", "Apart", "+counts_of fit IsApart AreCounts IsRefusedApart IsUnknownApart"),
      ("library_calls", "Extents", "+if_finite positions_in reach_after")]),
    ("Printed well-known binary",
     "A geometry is printed with the least byte of each number first, and without the number of a reference system.",
     [("wkb", "NearestDoubles", "+exponent_of goes_up nearest_size nearest_double place_of IsNear double_at"),
      ("wkb", "BinaryPrinting", "+count_bytes head_bytes no_number position_bytes line_bytes rings_bytes printed")]),
    ("Relations",
     "Eleven relations have a number: the eight named predicates, and three that are this project's choice."
     " Five of them hold of a geometry and a point by the point's place alone.",
     [("library_calls", "Relations", ""),
      ("library_calls", "PointRelations", "IsHeldAt")]),
    ("Faults in numbers, and statuses",
     "A fault is its letter, its number and two places.",
     [("library_calls", "Refusals", "numbers status_of_second")]),
    ("Lines of witnesses",
     "What `sfq_why` and `sfq_reason` hand out; the rest is in [DEFINITIONS-WHY](DEFINITIONS-WHY.md).",
     [("library_calls", "Explained", "")]),
    ("Databases",
     "A database that C keeps has the tables of a schema, which have no rows until they are loaded; each is loaded from a text."
     " Statements are open over it. A text, of whatever bytes, has parts: its tokens, and what begins none.",
     [("sfq_tables", "Connections", "definition_at"),
      ("sfq_tables", "OpenStatements", ""),
      ("sfq_tables", "OpenColumns", ""),
      ("sfq_tables", "OpenConstants", ""),
      ("sfq_tables", "OpenQueries", "origin_at origin_by"),
      ("sfq_tables", "QueryForms", "conjunct_form of_column of_constant argument_form operands_by_parts are_of_two"),
      ("sfq_tables", "NamedColumns", "named_in_geometry named_in_operand named_by_parts named_in_item named_in_whole named_in_read"),
      ("sfq_tables", "WrittenColumns", ""),
      ("sfq_tables", "TextParts", ""),
      ("statements", "Constants", "+constants_of with_constant constant_type may_replace takes"),
      ("statements", "BoundConstants", "+HasBegunWithPlan StaysAtEnd"),
      ("sfq_tables", "SteppedAnswers", ""),
      ("kept_tables", "KeptTables", "+KeptTables table_at is_loaded opened with_table"),
      ("sfq_tables", "TableFaults", "plain geometry_fault_at no_fault has_failed_schema has_failed_load has_failed_query IsReported")]),
]
TILES = [
    ("Tiles",
     "Cells cut the grid, and rows are copied to cells. Laws prove that the query over tiles gives the rows of"
     " the query over the whole.",
     [("fraction", "Ranges", "+IsOnGrid"),
      ("table_laws", "Cells", "Cell cells_of mark owner owns"),
      ("table_laws", "Tiles", "geometry_at marks marked is_zero"),
      ("table_laws", "Orders", "key_in keys_of"),
      ("table_laws", "TileLaws", "GeometryStatement AreKeyedRows FieldOnGrid AreOnGrid Forces IsTiled tiles_in rows_of_tiles"
       " DatabaseIsWhole TilesGiveRows CountsOfTilesAddUp SortedTileIsTile HasMarks TileIsKeyed"),
      ("table_laws", "StretchLaws", "blocks_of IsStretched IsOverBlocks BlocksGiveRows MergedBlocksAreMeant CountsOfBlocksAddUp")]),
    ("How the grid is cut",
     "`Sampler` keeps corners of the geometries in a column, evenly over the rows. `Cells::cut` cuts a box at the median of its sample, again"
     " and again.",
     [("tiles", "Lines", "+coordinate low_part high_part whole"),
      ("tiles", "Cuts", "HasBothSides LiesWithin"),
      ("tiles", "Samples", "corner_in_field corner_of")]),
    ("What is checked and written",
     "Records are those of a reader. A tile has those that are copied to a cell, a stretch the next ones.",
     [("tiles", "Checks", "counted"),
      ("tiles", "Passes", "+Counts IsOf"),
      ("tiles", "Copies", "+header_of AreRecordsOfTable copied_fields marked_fields tiles tiles_of size_of stretch_of stretch_count"
       " stretches stretches_of AreWritten"),
      ("tiles", "RecordLines", "+mark_text mark_fields SpellsNoGeometry"),
      ("tiles", "Faults", "is_copy_of_reading")]),
    ("What parts load as",
     "The texts of tiles load, and a query is asked over each pair of them. Its answers are merged by the keys of their rows.",
     [("tiles", "WholeTables", "+typed_row whole_table"),
      ("tiles", "LoadedTexts", "+BeginsWord"),
      ("tiles", "KeyMerges", ""),
      ("tiles", "TiledAnswers", "")]),
    ("The schema and the list of the parts",
     "The schema that is written is read again as exactly the tables of the parts.",
     [("sfq_tiles", "MadeTables", "IsMade"),
      ("sfq_tiles", "Lists", "")]),
    ("What splitting does",
     "`split` reads the words, the schema and all tables, and then writes the parts of one cut; or it ends early.",
     [("sfq_tiles", "Words", "before after is_called IsOfGeometries is_listed"),
      ("sfq_tiles", "Checks", "IsUnread Files IsCheckedAt IsOpenEnding"),
      ("sfq_tiles", "Splits", "header_by tables_by Begins End IsOfPart EndsBefore SplitsFiles"),
      ("sfq_tiles", "Endings", "memory_ending copy_ending")]),
    ("What a query gives over the parts",
     "A query is asked over what the texts of its parts of tiles load as, those of each number. Merged by keys, its answers are those over"
     " the whole tables.",
     [("table_model", "References", "+AreOneOrTwo"),
      ("table_model", "BoundQueries", "+GeometryFits cond_fits item_fits AreReferences IsBound argument_fits geometry_fits"),
      ("table_model", "TruthLaws", "+Argument"),
      ("sfq_tiles", "TileAnswers", "")]),
    ("Columns, texts and lines",
     "What is copied of a table and of a query over it, what the text of a cell gets, and what is written of a failure.",
     [("table_laws", "ColumnLaws", "+fields_in narrowed place_among moved moved_condition condition_columns item_column IsNarrowed IsNarrow"),
      ("tiles", "TileRows", "+IsOfGeometries"),
      ("tiles", "Texts", "+Texts Grow"),
      ("failures", "Failures", "+failure_text failure_line failure_status")]),
]
SHOWN = ["IsPoint", "side", "on", "IsInterior", "IsBoundary", "IsExterior", "HasTriangle", "HasDimension", "common",
         "IsMatrix", "GivesMatrix", "crosses", "holds", "IsValid", "Spells", "IsQuery", "and_of", "related", "truth_by_parts",
         "truth", "search_condition", "filtered", "meaning", "answer", "outcome", "ByEveryMatrix", "RunsOver", "in_order",
         "HoldsStretch", "IsFacePoint", "IsOff", "IsShownBy", "ShowsAll", "IsMeeting", "IsClashOf", "IsMeetingOf",
         "IsPlaceOf", "IsVerdictOn", "IsFirstWitness", "IsFirstPlaceOf", "HasMatrix", "HasRelation", "covers", "covered_by", "contains_properly",
         "text_fault_in_numbers", "validity_fault_in_numbers", "fault_in_numbers", "IsMade", "IsTaken", "fits", "LiesAt", "HoldsAt", "bounds_of", "IsSpelled",
         "overlap", "meets", "placed_meets", "meeting_places", "are_of_none", "are_of_some", "bounded", "places_in",
          "CutsGrid", "IsMedian", "IsCutAtMedians", "TiledAnswersAreMeant", "AnswersAreMeant", "AreMade", "IsWritten", "SplitsParts", "Returns", "ok", "first_refused", "second_refused", "out_of_memory", "unknown", "too_small", "none_there"]
# Names that the crates of definitions have twice, on one page, each with its file beside it.
TWICE = ["takes", "ReturnsFirst"]
# What is proved of the library from bytes on. PROVED, DEFINITIONS and DEFINITIONS-LIBRARY have it word for word.
FROM_BYTES = ("For the bytes of two shapes and a grid, the library returns the DE-9IM matrix, as point sets, of the valid geometries with"
              " the grid's nearest coordinates, or the first fault.")
HEAD = """# Definitions

For whoever doubts the proof. The machine proves that the program does what the definitions say.
Whether these say what the standards mean is for readers to judge.

Each row is a definition: its name, what it says, and where a standard has it. A number alone, such
as 6.1.4, is a clause of OGC 06-103r4. If a row names no standard, or says 'our choice', this
project chose. The definitions that matter most are printed whole. [PROVED](PROVED.md) lists the ten
that carry the headline.

""" + textwrap.fill(FROM_BYTES.replace("library", "[library](DEFINITIONS-LIBRARY.md)"), 100, break_on_hyphens=False) + """

Left out are helpers, which are beside their definition in its file, and what nobody has to believe:
functions that a law ties to a definition here, and the labels, cut points and pieces of the proof.
`src/*_examples.rt` of both models has worked examples, proved by computing.

`abbrev pub` begins a definition. What ends in `Type 0` is a fact, and so is a `record`, whose parts
all hold; what ends in `Bool` computes. `A × B` says both, `A → B` that A implies B, `(x : T) → ..`
says it of every x, `{T : Type 0} → ..` of every type, `¬ A` that A isn't so; `⊥` is never so.
`f x` is f of x, `λ x. ..` a function of x, `≡` equality, `x ∷ xs` a list that begins with x. ℕ are
the whole numbers from 0 on and ℤ those with a sign; `<ℤ` and the like are of ℤ, and `pos n` is n in
ℤ. `codes "T*"` are a text's bytes. `fold-Cond` goes through a condition from the inside out.

`docs/definitions.py` makes this page and those for [`why`](DEFINITIONS-WHY.md), the library and
[tiles](DEFINITIONS-TILES.md) from the comments in the specifications: change them there.
"""
REST = """
[DEFINITIONS](DEFINITIONS.md) explains the rows and the symbols, and has what these definitions name:
points, geometries, parts, matrices, validity, texts, tables. `docs/definitions.py` makes this page.
"""
WHY_HEAD = """# Definitions for `why`

For whoever doubts what `why` says: what it means that a point, a stretch or a face point shows a
cell of a matrix, and that a place shows a fault.
""" + REST
LIBRARY_HEAD = """# Definitions for the library

For whoever doubts what the calls of [`sfq.h`](../bindings/c/sfq.h) return: what the contracts of
`sfq_c` mean, where the proof ends. [C](C.md#what-is-proved) lists these contracts.

""" + textwrap.fill(f"{FROM_BYTES} [LIBRARY](LIBRARY.md#what-is-proved) says it in full, with the clauses.", 100, break_on_hyphens=False) + "\n" + REST
TILES_HEAD = """# Definitions for tiles

For whoever doubts what `sfq-tiles` writes: what a tile or a stretch of a table is, when the rows of
all of them are those of the whole, and what calls check and write. [SCALE](SCALE.md#what-is-proved) lists the contracts.
""" + REST
PAGES = {
    "DEFINITIONS": (HEAD, PAGE), "DEFINITIONS-WHY": (WHY_HEAD, WHY), "DEFINITIONS-LIBRARY": (LIBRARY_HEAD, LIBRARY),
    "DEFINITIONS-TILES": (TILES_HEAD, TILES),
}
# The words of CONTRIBUTING's glossary: a page links its first use of each, outside code, headings and other links.
GLOSSARY = re.compile(r"^\| (\w+) \| .* \|$", re.M)
LINKED_TO = "../CONTRIBUTING.md#words"
# What isn't prose, and what uses such a word in another sense.
HIDDEN = re.compile(r"^```.*?^```|^#.*?$|`[^`\n]*`|\[[^\]]*\]\([^)]*\)|\bin place of\b|\bclause of OGC\b|\breference systems?\b", re.M | re.S)


def entries(path):
    """The definitions of a file: name, words, clause, text."""
    comment, found = [], []
    lines = path.read_text(encoding="utf-8").splitlines()
    for number, line in enumerate(lines):
        if line.startswith("-- ----"):
            comment = []
        elif re.match("(?:  )?-- ", line):
            comment.append(line.lstrip()[3:])
        else:
            match = DEFINITION.match(line) or WITHIN.match(line)
            if match and comment:
                words = re.sub(r"\s*\(profile[^()]*\)$", "", " ".join(comment))
                clause = STANDARD.search(words)
                words = words[: clause.start()] if clause else words
                end = number
                while end < len(lines) and lines[end].strip():
                    end += 1
                text = textwrap.dedent("\n".join(lines[number:end]))
                found.append((match.group(1), words, clause.group(1) if clause else "", text))
            if line.strip() and not line.startswith("infix"):
                comment = []
    return found


def cell(text):
    return text.replace("|", "\\|")


def shortened(clause):
    """A clause as the page's head explains it: of 06-103r4 the number alone, and nothing where no standard is named."""
    if "06-104r4" not in clause:
        clause = clause.replace("06-103r4, ", "")
    return "" if clause == CHOICE else clause.replace(CHOICE, "our choice")


def wrapped(text, width=100):
    lines = [""]
    for word in text.split():
        if lines[-1] and len(re.sub(r"\]\([^)]*\)", "]", lines[-1])) + 1 + len(word) > width:
            lines.append("")
        lines[-1] += (" " if lines[-1] else "") + word
    return "\n".join(lines)


def section(title, words, files, problems, listed):
    links = [f"[{module}](../crates/{crate}/specs/{module}.antt)" for crate, module, _ in files]
    lead = "Files: " if len(links) > 1 else "File: "
    text = f"\n## {title}\n\n{wrapped(words)}\n\n{lead}" + ",\n".join(links) + ".\n"
    rows, shown = "", ""
    for crate, module, left_out in files:
        path = CRATES / crate / "specs" / f"{module}.antt"
        if not path.is_file():
            problems.append(f"no file {crate}/specs/{module}.antt")
            continue
        found = entries(path)
        names = [name for name, _, _, _ in found]
        problems += [f"no definition {name} in {module}" for name in left_out.lstrip("+").split() if name not in names]
        if left_out.startswith("+"):
            left_out = " ".join(name for name in names if name not in left_out[1:].split())
        for name, said, clause, whole in found:
            if name[0].isalpha() and name not in left_out.split():
                rows += f"| `{name}` | {cell(said)} | {cell(shortened(clause))} |\n".replace("|  |", "| |")
                shown += f"{whole}\n\n" if name in SHOWN else ""
                listed.setdefault(name, []).append(f"{crate}/specs/{module}.antt")
    text += f"\n| name | what it is | standard |\n|---|---|---|\n{rows}"
    return text + (f"\n```text\n{shown.rstrip()}\n```\n" if shown else "")


def glossary():
    """The words of the glossary."""
    return GLOSSARY.findall((HERE.parent / "CONTRIBUTING.md").read_text(encoding="utf-8").partition("\n## Words\n")[2])[1:]


def linked(text, words):
    """A page, in which the first use of each of these words is a link to the glossary."""
    for word in words:
        seen = HIDDEN.sub(lambda it: " " * len(it.group()), text)
        first = re.search(rf"\b{word}(?:s|es)?\b", seen, re.I)
        if first:
            text = f"{text[:first.start()]}[{text[first.start():first.end()]}]({LINKED_TO}){text[first.end():]}"
    return text


def main():
    problems, listed, same = [], {}, True
    words = glossary()
    for name, (head, sections) in PAGES.items():
        text = linked(head + "".join(section(*part, problems, listed) for part in sections), words)
        page = HERE / f"{name}.md"
        if "--check" in sys.argv[1:]:
            same = same and page.is_file() and page.read_text(encoding="utf-8") == text
        else:
            page.write_text(text, encoding="utf-8")
    problems += [f"{name} has two meanings: {', '.join(places)}" for name, places in listed.items() if len(places) > 1 and name not in TWICE]
    problems += [f"no definition {name} on a page" for name in SHOWN if name not in listed]
    for problem in problems:
        print(f"definitions.py: {problem}", file=sys.stderr)
    return 0 if same and not problems else 1


if __name__ == "__main__":
    sys.exit(main())
