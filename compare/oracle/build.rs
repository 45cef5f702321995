fn main() {
    checkout::lay_module(
        "simulator",
        &[
            "simulator/lib.rs",
            "simulator/network.rs",
            "simulator/properties.rs",
        ],
        &["stand_ins/state_machine.rs", "stand_ins/workload.rs"],
    );
    checkout::lay_extended(
        "network_read",
        "simulator/network.rs",
        "stand_ins/network_reader.rs",
    );
}
