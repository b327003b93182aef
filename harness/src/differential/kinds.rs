//! Names of all kinds of jobs, damage, states, records and lent areas. A long
//! run must have had each of them.

/// Defines the names and the list of them all.
macro_rules! kinds {
    ($($name:ident = $words:literal;)*) => {
        $(pub const $name: &str = $words;)*

        pub const KINDS: &[&str] = &[$($name),*];
    };
}

kinds! {
    // Files
    GROWN_PLAN = "plan grown with its tables";
    ARBITRARY_PLAN = "arbitrary masks and plan";
    MANY_ROWS = "many rows";
    GREATEST_SIZES = "greatest sizes";
    BIT_FLIPS = "bit flips";
    CUT = "cut file";
    EXTENDED = "extended file";
    BYTE_EDITS = "byte edits";
    NUMBER_EDITS = "number edits";
    BYTES_MOVED = "bytes put in or taken out";
    ONE_REFUSAL = "one refusal aimed at";
    TWO_REFUSALS = "two refusals aimed at";

    // Shapes
    TREE = "tables in a tree";
    CHAIN = "tables in a chain";
    STAR = "tables in a star";
    APART = "cross product";
    SAME_COLUMNS = "tables with the same columns";
    WIDE = "tables of many columns";
    ONE_TABLE = "one table";
    EIGHT_TABLES = "eight tables";
    EMPTY_TABLE = "empty table";
    EQUAL_ROWS = "equal rows";

    // Values
    FEW_VALUES = "few distinct values";
    EXTREME_VALUES = "extreme values";
    NEAR_VALUES = "values that differ in one bit";
    ONE_VALUE = "one value everywhere";
    ANY_VALUES = "any values";

    // States
    FITTING_STATE = "fitting state that no run need have reached";
    NEAR_STEP_LIMIT = "state near the step limit";
    ADVANCE_TOO_FAR = "advance at a position that is not there";
    LOOKUP_TOO_FAR = "lookup at a position that is not there";
    LOOKUP_AT_ROOT = "lookup at the root";
    ENDED_WITH_POSITION = "ended with a position";
    CHOSEN_TOO_HIGH = "chosen row that is not there";
    UNUSED_CHOSEN = "unused chosen row that is not 0";
    START_TOO_HIGH = "starting row over the row count";
    UNUSED_START = "unused starting row that is not 0";
    TOO_MANY_STEPS = "steps over the limit";
    TOO_MANY_LOOKUPS = "lookups over the steps";
    TOO_MANY_RECORDS = "records over the steps";
    NO_KIND = "kind over 2";
    ARBITRARY_STATE = "arbitrary state numbers";

    // Mark areas
    MARKS_SHORT_BY_ONE = "mark area short by one";
    MARKS_MUCH_SHORT = "mark area much too short";
    MARKS_EXACT = "mark area of the total of rows";
    MARKS_LONGER = "mark area longer than needed";
    FOREIGN_MARKS = "marks that no run made";

    // Budgets and areas
    NO_BUDGET = "budget 0";
    GREATEST_BUDGET = "greatest budget";
    AREA_SHORT_BY_ONE = "area one place short of a record";
    AREA_OF_ONE_RECORD = "area of one record";
    PLACES_LEFT = "places after the last record";

    // Records and value areas
    RECORD_SHORT = "record too short";
    RECORD_LONG = "record too long";
    ROW_TOO_HIGH = "row number that is not there";
    ROWS_DISAGREE = "rows that disagree";
    ARBITRARY_RECORD = "arbitrary record";
    VALUES_SHORT_BY_ONE = "value area short by one";
    VALUES_MUCH_SHORT = "value area much too short";
    VALUES_LONGER = "value area longer than needed";

    // Two faults in one call
    FILE_AND_MARKS = "bad file and short mark area";
    FILE_AND_STATE = "bad file and bad state";
    FILE_AND_RECORD = "bad file and bad record";
    MARKS_AND_STATE = "short mark area and bad state";
    RECORD_AND_VALUES = "bad record and short value area";
}
