//! Two sample problems of the Highway Safety Manual, Chapter 10, by edition 2's
//! model, with the problems and what is allowed in `reference::manual`.

use reference::manual::{problems, Problem};
use reference::model::Model;
use reference::prediction::predicted;
use reference::rules::EDITIONS;

const DEPTH: u32 = 9;

fn is_near(problem: &Problem, edition: u8) -> bool {
    let model = Model::of_edition(edition);
    problem.is_met_by(&predicted(model, &problem.header, &problem.site, DEPTH))
}

/// Edition 1, asked about the same roads, is further off.
#[test]
fn edition_two_has_their_answers() {
    for problem in problems() {
        let met = EDITIONS.map(|edition| is_near(&problem, edition));
        assert_eq!(met, [false, true], "{}", problem.name);
    }
}
