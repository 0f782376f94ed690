//! What the documentation's examples don't show: values that move, threads that share, lists that are long.
use gtd::{day_of, second_of, AskError, Direction, Domain, Question, Records};
use std::fmt::Write;
use std::thread;

fn is_send<T: Send>() {}

/// A file of 1,000 rows: element `row % 100`, closed in the hour `row % 24`.
fn file() -> String {
    let mut text = String::from("element,direction,vehicle,domain\n");
    for row in 1..=1_000 {
        writeln!(text, "{},both,0,(h{}){{h1}}", row % 100, row % 24).unwrap();
    }
    text
}

#[test]
fn values_go_to_other_threads() {
    is_send::<Domain>();
    is_send::<Records>();
    is_send::<gtd::Spans>();
}

#[test]
fn four_threads_answer_as_one_does() {
    let records = Records::new(file()).unwrap();
    let noon = second_of(2024, 2, 29, 12, 0, 0).unwrap();
    let ask = move |records: Records| -> Vec<bool> {
        (0..100_000).map(|n| records.closed_at(n % 101, Direction::Negative, 1, noon + 61 * n as i64).unwrap()).collect()
    };
    let threads: Vec<_> = (0..4).map(|_| records.share().unwrap()).map(|own| thread::spawn(move || ask(own))).collect();
    let alone = ask(records);
    for thread in threads {
        assert_eq!(thread.join().unwrap(), alone);
    }
}

#[test]
fn shared_records_outlive_the_first_value() {
    let records = Records::new(file()).unwrap();
    let other = records.share().unwrap();
    drop(records);
    assert_eq!(other.count().unwrap(), 100);
}

#[test]
fn spans_outlive_their_domain() {
    let day = day_of(2024, 1, 1).unwrap();
    let mut spans = Domain::new("(h1){h1}").unwrap().spans(day, day + 3).unwrap();
    assert_eq!(spans.by_ref().count(), 3);
    assert_eq!(spans.next(), None);
}

#[test]
fn a_domain_is_compared_with_itself() {
    let domain = Domain::new("(y2024){d1}").unwrap();
    assert_eq!(domain.compare(&domain, gtd::FIRST_MOMENT), Ok(gtd::Comparison::SameUntil2700));
    let end = second_of(2200, 1, 1, 0, 0, 0).unwrap();
    assert_eq!(domain.compare(&domain, end), Err(AskError::Range));
}

#[test]
fn each_side_is_told() {
    let (one, other) = (Domain::new("(h1){h1}").unwrap(), Domain::new("(h1){h2}").unwrap());
    let second = second_of(2024, 2, 29, 2, 0, 0).unwrap();
    let apart = |side| gtd::Comparison::Apart(gtd::Apart { second, side });
    assert_eq!(one.compare(&other, second - 1), Ok(apart(gtd::Side::Second)));
    assert_eq!(other.compare(&one, second - 1), Ok(apart(gtd::Side::First)));
}

#[test]
fn faults_of_hours_have_names() {
    let fault = Domain::from_hours("Mo Mo").unwrap_err();
    assert_eq!(fault.to_string(), "hours: Unexpected at 3");
    assert_eq!(gtd::HoursFaultKind::TooMany.name(), "TooMany");
}

#[test]
fn long_lists_are_whole() {
    let mut text = String::from("element,direction,vehicle,domain\n");
    for _ in 0..500 {
        text.push_str("17,both,0,\n");
    }
    let records = Records::new(text).unwrap();
    let rows = records.closers(17, Direction::Positive, 1, 0).unwrap();
    assert!(rows.into_iter().eq(1..=500));
}

#[test]
fn many_questions_are_answered_as_one() {
    let records = Records::new(file()).unwrap();
    let questions: Vec<_> = (0..10_000)
        .map(|n| Question { element: n % 101, second: 3_607 * n as i64, vehicle: 99, direction: Direction::Positive })
        .collect();
    let one_by_one: Vec<_> =
        questions.iter().map(|q| records.closed_at(q.element, q.direction, q.vehicle, q.second).unwrap()).collect();
    assert_eq!(records.closed_many(&questions).unwrap(), one_by_one);
    let outside = [questions[0], Question { vehicle: 100, ..questions[1] }];
    assert_eq!(records.closed_many(&outside), Err(AskError::Range));
}

#[test]
fn empty_questions_have_no_answers() {
    assert!(Domain::new("(h1){h1}").unwrap().holds_many(&[]).unwrap().is_empty());
    assert!(Records::new("element,direction,vehicle,domain\n").unwrap().closed_many(&[]).unwrap().is_empty());
}

#[test]
fn a_year_is_no_question_for_ever() {
    let domain = Domain::new("(y2024){d1}").unwrap();
    assert_eq!(domain.ever_changes(0), Err(AskError::Year));
    assert_eq!(Domain::new("(h1){h1}").unwrap().ever_changes(i64::MAX), Err(AskError::Range));
}
