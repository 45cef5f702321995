//! Lays the simulator twice: `original` with the checkout's files unchanged, and `adapted` with our library in the place
//! of its network, its faults, its verdicts and its core. `extended` is the Rust's network once more, with what the others need of its private parts at its end.

fn main() {
    let stand_ins = ["stand_ins/state_machine.rs", "stand_ins/workload.rs"];
    checkout::lay_module(
        "original",
        &[
            "simulator/lib.rs",
            "simulator/network.rs",
            "simulator/properties.rs",
        ],
        &stand_ins,
    );
    let root = checkout::Edited {
        file: "simulator/lib.rs",
        bodies: &[
            (
                "pub fn apply(&mut self, fault: Fault)",
                "plants::apply(self, fault)",
            ),
            (
                "pub fn transition_to_liveness_mode(&mut self)",
                "plants::transition_to_liveness_mode(self)",
            ),
            ("fn tick_network(&mut self)", "plants::tick_network(self)"),
        ],
        end: "\nmod plants;\n",
    };
    checkout::lay_edited(
        "adapted",
        &root,
        &["simulator/properties.rs"],
        &[
            stand_ins[0],
            stand_ins[1],
            "adapter/network.rs",
            "adapter/plants.rs",
        ],
    );
    checkout::lay_extended("extended", "simulator/network.rs", "adapter/extended.rs");
}
