//! Readable lines to bytes and back.

use reference::random::Random;
use reference::{generate, text};

#[test]
fn decoding_then_encoding_gives_the_same_bytes() {
    let mut random = Random::new(1);
    for _ in 0..4000 {
        // Random bytes, most of them small so that commands are met; small and large columns.
        let length = random.below(80);
        let limit = random.pick(&[3, 21, 256]);
        let bytes: Vec<u8> = (0..length).map(|_| random.below(limit) as u8).collect();
        assert_eq!(text::encode(&text::decode(&bytes)).unwrap(), bytes);
    }
    for seed in (0..60).filter(|seed| !generate::is_long(*seed)) {
        let bytes = generate::stream(seed);
        assert_eq!(text::encode(&text::decode(&bytes)).unwrap(), bytes);
    }
}

#[test]
fn encoding_then_decoding_gives_the_lines_in_their_usual_form() {
    let given = "# a comment

        shape  3 1 4 1   # columns ranges capacity spares
        begin
        insert 1  1200 -30 +7
        update 1 0 mask 0b101 1 2 3
        update 1 0 0x5 1 2 3
        byte 01 0f
        byte 0B";
    let usual = "shape 3 1 4 1\nbegin\ninsert 1 1200 -30 7\nupdate 1 0 mask 5 1 2 3\n\
        update 1 0 mask 5 1 2 3\nbegin\nrelease\nbyte 0B\n";
    assert_eq!(text::decode(&text::encode(given).unwrap()), usual);
    assert_eq!(text::decode(&text::encode(usual).unwrap()), usual);
}

#[test]
fn every_line_form_goes_both_ways() {
    let lines = "shape 1 2 300 4\nbegin\ninsert 1 -2147483648\nupdate 1 2 mask 3 2147483647\n\
        delete 1 2\ncommit 1 4294967295\nabort 65535\nlatest 1 255\nread-at 1 2 3\n\
        own-read 1 2 3\nopen-scan 1\nscan-read 1 2 3\nsum 1 2\nclose 1\nmerge 1 2 3\n\
        release\npage-cell 1 2\nlineage 1 2\ncrossings 65535 255 -2147483648 0 4294967295\n\
        crossings 1 2 2147483647 4294967295 0\nbegin-as 0\nbegin-as 65535\n\
        keeper-at 0 1 2\nkeeper-at 4294967295 65535 255\nbyte AB CD\n";
    assert_eq!(text::decode(&text::encode(lines).unwrap()), lines);
    for line in lines.lines() {
        let name = line.split(' ').next().unwrap();
        assert!(text::HELP.contains(name), "{name} is in the help");
    }
}

#[test]
fn errors_name_the_line() {
    let refused = |lines: &str| text::encode(lines).unwrap_err();
    assert_eq!(refused("begin"), "line 1: the shape comes first");
    assert_eq!(refused("shape 1 1 1"), "line 1: spares is missing");
    assert_eq!(refused("shape 256 1 1 0"), "line 1: columns 256 does not fit in 1 bytes");
    let after = |line: &str| refused(&format!("# shape\nshape 2 1 1 0\n\n{line}"));
    assert_eq!(after("shape 2 1 1 0"), "line 4: the shape comes first and once");
    assert_eq!(after("stop"), "line 4: unknown command 'stop'");
    assert_eq!(after("insert 1 5"), "line 4: value is missing");
    assert_eq!(after("insert 1 5 6 7"), "line 4: '7' is one word too many");
    assert_eq!(after("latest 65536 0"), "line 4: row 65536 does not fit in 2 bytes");
    assert_eq!(after("latest -1 0"), "line 4: row -1 does not fit in 2 bytes");
    assert_eq!(after("insert 1 2147483648 0"), "line 4: value 2147483648 does not fit in 4 bytes");
    let mark = "line 4: mark 2147483648 does not fit in 4 bytes";
    assert_eq!(after("crossings 0 0 2147483648 0 0"), mark);
    assert_eq!(after("crossings 0 0 0 -1 0"), "line 4: from -1 does not fit in 4 bytes");
    assert_eq!(after("crossings 0 0 0 0"), "line 4: to is missing");
    assert_eq!(after("begin-as"), "line 4: keeper is missing");
    assert_eq!(after("begin-as 65536"), "line 4: keeper 65536 does not fit in 2 bytes");
    assert_eq!(after("begin-as -1"), "line 4: keeper -1 does not fit in 2 bytes");
    assert_eq!(after("begin 7"), "line 4: '7' is one word too many");
    assert_eq!(after("keeper-at 10 0"), "line 4: column is missing");
    assert_eq!(after("keeper-at 10 0 256"), "line 4: column 256 does not fit in 1 bytes");
    assert_eq!(after("abort one"), "line 4: transaction 'one' is not a number");
    assert_eq!(after("byte 1"), "line 4: '1' is not a byte of two hexadecimal digits");
    assert_eq!(after("byte +1"), "line 4: '+1' is not a byte of two hexadecimal digits");
}
