//! Document 01's figures A to L, and the two lines of "The program".

use peer::category::Category;
use peer::charts::{
    contributions, highest_run, large_discrepancy, measure, variability, Run, FOOD,
};
use peer::difference::{difference, fourth_root, protein_power, value, Derived};
use peer::food_line::{read, Product, Reading, MOISTURE, SALT};
use peer::program::{stream, transcript};
use peer::refused::Refusal;
use peer::study::analyte_passes;

const LINE: &str = "0207dc030a021770070805dc00c80042700000004190000000417000000040000000";

/// What the first reading of a line becomes when its four bytes are these.
fn moisture_hundredths(bits: &str) -> Result<Option<u16>, Refusal> {
    let text = format!("{}{bits}{}", &LINE[..30], &LINE[38..]);
    read(text.as_bytes()).map(|line| line.readings[0].hundredths())
}

#[test]
fn a_binary32_to_hundredths() {
    assert_eq!(moisture_hundredths("3e000000"), Ok(Some(13)));
}

#[test]
fn b_one_hundred_percent_and_the_next() {
    assert_eq!(moisture_hundredths("42c80000"), Ok(Some(10000)));
    assert_eq!(moisture_hundredths("42c80001"), Err(Refusal::Reading));
}

#[test]
fn c_minus_zero() {
    assert_eq!(moisture_hundredths("80000000"), Err(Refusal::Reading));
}

#[test]
fn d_fourth_root() {
    assert_eq!(fourth_root(200), 11892);
}

#[test]
fn e_protein_power() {
    assert_eq!(protein_power(10), 10000);
    assert_eq!(protein_power(1000), 199526);
}

fn d_of(class: u8, analyte: usize, mean: u16, h: u16) -> i32 {
    let product = Product::new(class).unwrap();
    difference(mean + h, mean, value(product, analyte, mean, &Derived))
}

#[test]
fn f_moisture_of_other_meat() {
    let d = d_of(2, MOISTURE, 6000, 100);
    assert_eq!(d, 18);
    let all = [FOOD.positive(d), FOOD.negative(d), variability(d), large_discrepancy(measure(d))];
    assert_eq!(all, [14, -20, 9, -250]);
    assert_eq!(contributions(&[d], &FOOD), all);
}

#[test]
fn g_salt() {
    let (below, above) = (d_of(2, SALT, 200, 38), d_of(2, SALT, 200, 39));
    assert_eq!((below, measure(below)), (25, 0));
    assert_eq!((above, measure(above)), (26, 385));
}

/// Chart P's law alone.
fn run(contributions: &[i32]) -> Run {
    highest_run(contributions).unwrap()
}

#[test]
fn h_at_the_limit_and_over() {
    assert_eq!(run(&[20, 20, 12]).sum, 52);
    assert!(run(&[20, 20, 12]).sum <= FOOD.limit(0));
    assert_eq!(run(&[20, 20, 13]), Run { first: 1, last: 3, sum: 53 });
    assert!(run(&[20, 20, 13]).sum > FOOD.limit(0));
}

#[test]
fn i_a_negative_first_sample_counts() {
    assert_eq!(run(&[-20, 20, 20, 20]).sum, 40);
}

#[test]
fn j_a_run_from_sample_3() {
    assert_eq!(run(&[-20, 20, 20, 20, 20]), Run { first: 3, last: 5, sum: 60 });
}

#[test]
fn k_sets_of_one_difference() {
    assert!(analyte_passes(&[7; 36]));
    assert!(!analyte_passes(&[8; 36]));
}

#[test]
fn l_sets_of_two_differences() {
    let spread = |d: i32| analyte_passes(&[[d; 18], [-d; 18]].concat());
    assert!(spread(11));
    assert!(!spread(12));
}

#[test]
fn the_program() {
    let input = format!("00\n{LINE}\n");
    let expected = "0001\n0301\n000000000000\n";
    assert_eq!(transcript(Category::Food, input.as_bytes()), expected.as_bytes());
    let mut output = Vec::new();
    stream(Category::Food, &mut input.as_bytes(), &mut output).unwrap();
    assert_eq!(output, expected.as_bytes());
}

#[test]
fn a_line_is_written_back() {
    let line = read(LINE.as_bytes()).unwrap();
    assert_eq!(line.write(), LINE.as_bytes());
    assert_eq!(line.readings[0], Reading::Percent(0x42700000));
}
