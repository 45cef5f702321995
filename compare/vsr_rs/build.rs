fn main() {
    checkout::lay_module("protocol", &["lib.rs"], &[]);
}
