// The README's host in Rust.
fn main() {
    // of the network's DISCONNECT: what the call cost
    let octets = [
        0xA1, 0x1A, 0x02, 0x01, 0x0B, 0x02, 0x01, 0x23, 0x30, 0x12, 0x30, 0x10, 0xA1, 0x0E, 0x81, 0x03, 0x45, 0x55, 0x52, 0xA2, 0x07,
        0x81, 0x02, 0x00, 0x96, 0x82, 0x01, 0x01,
    ];
    let mut call = aoc::Call::new();
    println!("set-up: {}", call.setup(&[], aoc::identifiers(0)));
    println!("connect: {}", call.connect());
    println!("clear: {}", call.clear());
    println!("component: {}", call.component(&octets));
    println!("released: {}", call.released());
    match call.closing() {
        Some(closing) => println!("to post: {}", closing.charge),
        None => println!("to post: nothing"),
    }
}
