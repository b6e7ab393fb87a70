//! Schedules `y = x` above `x = 1`: the second statement has to come first.

fn main() {
    const X: u64 = 1;
    const Y: u64 = 2;
    // A row: statement, name, and the eight words of the set of used names.
    let row = |statement, name, used| [statement, name, used, 0, 0, 0, 0, 0, 0, 0];
    let set = |name: u64| 1 << name;
    let definitions = [
        row(0, Y, set(X)),
        row(0, X, set(Y)),
        row(1, X, 0),
        row(1, 0, set(X)),
    ];
    let (mut order, mut reached) = ([0; 2], [0; 2]);
    let placed = nokchbem::schedule(definitions.as_flattened(), 2, &mut order, &mut reached);
    println!("placed: {placed:?}, order: {order:?}, reached: {reached:?}");
    assert_eq!((placed, order, reached), (Ok(true), [1, 0], [1, 1]));
}
