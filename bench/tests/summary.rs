//! What is made of the lines of the processes: medians and ranges, of numbers that are given here.

use bench::summary::{median, rows, summary, Figures, Line};

fn process(lines: &[&str]) -> Vec<Line> {
    lines.iter().map(|line| line.parse().expect("a line of a process")).collect()
}

#[test]
fn a_line_is_group_row_and_ratios() {
    let line: Line = "a mix, refused\ta row\t1.5 0.25 12".parse().expect("a line");
    assert_eq!(line, Line::new("a mix, refused", "a row", vec![1.5, 0.25, 12.0]));
    assert_eq!(line.to_string(), "a mix, refused\ta row\t1.50000 0.25000 12.00000");
    assert_eq!(line.to_string().parse(), Ok(line));
}

#[test]
fn other_lines_are_errors() {
    for text in ["", "a mix\ta row", "a mix\ta row\t", "a mix\ta row\tmuch", "a mix\ta row\t1.0 ", "a\tb\t1.0\t2.0"] {
        assert!(text.parse::<Line>().is_err(), "{text:?}");
    }
}

#[test]
fn the_median_is_in_the_middle() {
    assert_eq!(median(&[3.0]), 3.0);
    assert_eq!(median(&[9.0, 1.0, 2.0]), 2.0);
    assert_eq!(median(&[4.0, 1.0, 2.0, 100.0]), 3.0);
}

#[test]
fn a_summary_has_median_and_range_of_the_medians() {
    // The medians of the first row: 2, 1.5 and 7. A mean, or the range of all rounds, would be another.
    let processes = [
        process(&["a mix\ta row\t2 90 0.01", "a mix\tanother row\t1 1 1", "growth\ta row\t0.004"]),
        process(&["a mix\ta row\t1.5", "a mix\tanother row\t3 4", "growth\ta row\t0.006"]),
        process(&["a mix\ta row\t7 7 0.5 8", "a mix\tanother row\t0.5 0.25 0.75", "growth\ta row\t0.125"]),
    ];
    let expected = "a mix:\n  a row        2.00 (1.50 to 7.00)\n  another row  1.00 (0.50 to 3.50)\n\
                    growth:\n  a row        0.006 (0.004 to 0.12)\n";
    assert_eq!(summary(&processes).as_deref(), Ok(expected));
}

#[test]
fn a_summary_is_read_again() {
    let processes = [process(&["a mix\ta row, of 1\t2", "another mix\ta row\t0.5"]), process(&[]), process(&[])];
    let printed = summary(&processes[..1]).expect("one process");
    let figures = |ratio| Figures { median: ratio, least: ratio, greatest: ratio };
    let expected = [("a mix", "a row, of 1", figures(2.0)), ("another mix", "a row", figures(0.5))];
    assert_eq!(rows(&format!("seed 1: of rows\n{printed}listings were not measured: why\n")), expected);
}

#[test]
fn processes_with_other_rows_are_an_error() {
    let first = process(&["a mix\ta row\t1", "a mix\tanother row\t1"]);
    for other in [&["a mix\ta row\t1"][..], &["a mix\tanother row\t1", "a mix\ta row\t1"], &["b\ta row\t1"], &[]] {
        assert!(summary(&[first.clone(), process(other)]).is_err(), "{other:?}");
    }
    assert!(summary(&[]).is_err());
}
