//! Pictures of a list's charts. Events, status and runs are read off the output of the program
//! under view; the values after each sample are the peer's, since the program does not print them.

pub mod answers;
pub mod history;
pub mod plot;
pub mod svg;
pub mod text;
pub mod words;

#[cfg(test)]
mod tests {
    use super::history::tests::of_case_in;
    use super::{svg, text};
    use crate::category::Category;
    use crate::program::{ended, lines};

    fn drawn(category: Category, input: &[u8]) -> [String; 2] {
        let history = of_case_in(category, input);
        let page = text::page("list", "the peer", &history);
        [page, svg::picture("list", "the peer", &history).unwrap()]
    }

    /// Only the numbers of lines tell a list with empty lines from the one with these dropped: they
    /// are those of the list as it stands.
    fn assert_drawn_as_dropped(category: Category, input: &[u8], numbers: &[(&str, &str)]) {
        let kept: Vec<&[u8]> = lines(input).filter(|line| !line.is_empty()).collect();
        let dropped = drawn(category, &ended(&kept)).map(|drawing| {
            numbers.iter().fold(drawing, |drawing, (dropped, as_it_stands)| {
                assert!(drawing.contains(dropped));
                drawing.replace(dropped, as_it_stands)
            })
        });
        assert_eq!(drawn(category, input), dropped);
    }

    #[test]
    fn empty_lines_are_not_drawn() {
        assert_drawn_as_dropped(
            Category::Food,
            include_bytes!("../../crates/case_status/stdin"),
            &[
                ("Admission 1: line 37,", "Admission 1: line 41,"),
                ("charts: line 42,", "charts: line 51,"),
            ],
        );
        assert_drawn_as_dropped(
            Category::tested_residue(),
            include_bytes!("../../crates/case_residue_status/stdin"),
            &[("charts: line 5,", "charts: line 12,")],
        );
        assert_drawn_as_dropped(
            Category::tested_residue(),
            include_bytes!("../../crates/case_residue_both/stdin"),
            &[(
                "Probation by misidentifications: line 6,",
                "Probation by misidentifications: line 7,",
            )],
        );
    }
}
