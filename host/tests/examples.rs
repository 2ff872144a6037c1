//! The programs of `examples/` print what they are to print.
use std::process::{Command, Output};

/// Runs an example as its head says.
fn run(name: &str) -> Output {
    let mut cargo = Command::new(env!("CARGO"));
    cargo.args(["run", "--quiet", "--release", "--offline", "--example", name]);
    cargo.current_dir(env!("CARGO_MANIFEST_DIR")).output().expect("cargo starts")
}

/// Of the six frames heard one is damaged, one is heard twice, which is refused by 23, and one is clear: it is shown and not
/// handed on. The others, of two senders, are handed on when all of the burst is noted. After the cut the four that opened were all heard
/// before, and the counters reserved 1,000 at a time go on behind 1,000. Of the two senders one is replaced.
#[test]
fn the_gateways_loop() {
    let ran = run("gateway");
    let expected = "the first start
damaged, or under another network's key
heard before
clear, from 0x9C44: 16 bytes of a probe that has yet to join
0x0000: Some(LinkStatus)
0x7A10: 16 bytes for the layer above
0x7A10: 16 bytes for the layer above
1 refused by 19: the MIC is not the one computed
1 refused by 23: the frame counter is FFFFFFFF or not above the sender's stored one
1 clear; the next outgoing counter is 1
after a power cut, the same frames again
heard before
heard before
damaged, or under another network's key
heard before
clear, from 0x9C44: 16 bytes of a probe that has yet to join
heard before
1 refused by 19: the MIC is not the one computed
4 refused by 23: the frame counter is FFFFFFFF or not above the sender's stored one
1 clear; the next outgoing counter is 1001
00:12:4B:00:1C:A1:B2:C3 is replaced: 1 of 64 places taken
";
    assert_eq!(String::from_utf8_lossy(&ran.stdout), expected);
    assert!(ran.status.success(), "{}", String::from_utf8_lossy(&ran.stderr));
}
