//! The walk that rust/README.md shows; tests/examples.sh holds it to these lines. To be run where samples/ is.
fn main() -> Result<(), Box<dyn std::error::Error>> {
    let bytes = std::fs::read("samples/plan.bin")?;
    let mut walker = mealplan::Plan::new(&bytes)?.walker();
    assert_eq!(walker.first_root(), Some(99));
    assert_eq!(walker.first_child(), Some(97));
    let kept = walker.place();
    assert_eq!(walker.parent(), Some(99));
    assert_eq!(walker.go_to(&kept)?, Some(97));
    Ok(())
}
