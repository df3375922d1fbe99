//! `cargo run --release -p bench` prints for each call the instructions and the nanoseconds, proved
//! and of both peers, and the ratios, proved over the peer's.

fn main() -> Result<(), String> {
    if bench::asked_to_count() {
        bench::count();
        return Ok(());
    }
    print!("{}", bench::HEAD);
    for row in bench::rows()? {
        println!("{row}");
    }
    Ok(())
}
