//! The two sample problems of `reference::manual` by the engine's line of a site.

use engine::lines::line;
use reference::estimates::Estimates;
use reference::manual::{problems, Problem};
use reference::prediction::MILLION;
use reference::project::Header;
use reference::rational::Rational;
use reference::rules::EDITIONS;

fn is_near(problem: &Problem, edition: u8) -> bool {
    let header = Header {
        edition,
        ..problem.header
    };
    let [low, high, ..] = line(&header, &problem.site).expect("a line");
    problem.is_met_by(&Estimates {
        under: Rational::of(low, MILLION),
        over: Rational::of(high, MILLION),
    })
}

/// Edition 1, asked about the same roads, is further off.
#[test]
fn edition_two_has_their_answers() {
    for problem in problems() {
        let met = EDITIONS.map(|edition| is_near(&problem, edition));
        assert_eq!(met, [false, true], "{}", problem.name);
    }
}
