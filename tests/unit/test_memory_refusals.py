"""The list of all places that say that memory ran out: what it must notice."""
from memory_refusals import faults_of

PATH = "crates/low/src/lib.rt"
SOURCE = """\
/// Fails with 900.
pub fn grow(count: usize) -> Result<(), Fault> {
    if count == 0 {
        return Err(Fault::bare(refusals::WANT_OF_MEMORY));
    }
    Ok(())
}
"""
LISTED = f"# why\n{PATH} grow: a growth was refused\n"


def test_a_listed_place_is_no_fault():
    assert faults_of({PATH: SOURCE}, LISTED) == ([], 1)


def test_a_place_that_is_not_listed_is_a_fault():
    again = SOURCE + SOURCE.replace("grow", "shrink")
    assert [it.split(" says")[0] for it in faults_of({PATH: again}, LISTED)[0]] == [f"{PATH}: fn shrink"]


def test_a_second_place_in_a_listed_function_is_a_fault():
    twice = SOURCE.replace("    Ok(())\n", "    Err(Fault::from(AllocError))\n")
    assert len(faults_of({PATH: twice}, LISTED)[0]) == 1


def test_a_listed_place_that_is_gone_is_a_fault():
    assert len(faults_of({PATH: "fn grow() {}\n"}, LISTED)[0]) == 1


def test_the_number_itself_is_a_fault():
    faults, _ = faults_of({PATH: SOURCE.replace("refusals::WANT_OF_MEMORY", "900")}, "")
    assert faults == [f"{PATH}:4: it writes 900: name refusals::WANT_OF_MEMORY"]


def test_what_is_compared_matched_or_quoted_is_no_place():
    text = 'fn told(e: u16) -> &str {\n    // 900\n    match e {\n        refusals::WANT_OF_MEMORY => "memory 900",\n        _ => "",\n    }\n}\n'
    text += "fn is(e: u16) -> bool {\n    e == refusals::WANT_OF_MEMORY\n}\n"
    assert faults_of({PATH: text}, "") == ([], 0)


def test_a_line_of_the_list_without_a_reason_is_a_fault():
    faults, _ = faults_of({PATH: SOURCE}, f"{PATH} grow:\n")
    assert faults[0] == "tests/memory_refusals.txt:1: write FILE FUNCTION: REASON"
