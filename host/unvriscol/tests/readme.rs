//! README.md shows examples/start.rs, to the letter.

#[test]
fn the_example() {
    let readme = include_str!("../../../README.md");
    let fence = readme
        .split("```rust\n")
        .nth(1)
        .expect("a fence of Rust in README.md");
    let (shown, _) = fence.split_once("```").expect("its end");
    assert_eq!(shown, include_str!("../examples/start.rs"));
}
