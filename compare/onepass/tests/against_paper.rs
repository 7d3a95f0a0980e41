//! The answers, compared with those of `paper`.

#[path = "../../common/tests/player.rs"]
mod player;

#[test]
fn every_answer_is_papers() {
    player::every_answer_is_papers::<onepass::OnePass>();
}
