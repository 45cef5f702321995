fn main() {
    checkout::lay_module("properties", &["simulator/properties.rs"], &[]);
    checkout::lay_extended("readable", "simulator/properties.rs", "readers/trackers.rs");
}
