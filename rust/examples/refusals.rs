// Every listed refusal in words, one to a line.
fn main() {
    for refusal in mixegorta::Refusal::LISTED {
        println!("{refusal}");
    }
}
