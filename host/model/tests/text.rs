//! The text program: 01's session and the forms of lines.

use model::text::serve;

fn answers(input: &str) -> String {
    String::from_utf8(serve(input.as_bytes())).expect("ASCII")
}

/// Each line of a session, and what is printed for it.
fn session(rows: &[(&str, &str)]) {
    let input: String = rows.iter().map(|(line, _)| format!("{line}\n")).collect();
    let output = answers(&input);
    let printed: Vec<_> = output.lines().collect();
    assert_eq!(printed.len(), rows.len());
    for ((line, answer), printed) in rows.iter().zip(printed) {
        assert_eq!(printed, *answer, "{line}");
    }
}

#[test]
fn the_session_of_01() {
    session(&[
        ("create /x", "0 0"),
        ("write 0 MONFRI", "0 6"),
        ("seek 0 0 8", "0 8"),
        ("write 0 SU", "0 2"),
        ("fstat 0", "0 10 2 1"),
        ("seek 0 0 5", "0 5"),
        ("read 0 9", "0 5 4900005355"),
        ("open /y", "4"),
        ("room", "0 2 2 1"),
    ]);
}

#[test]
fn prepare_is_a_word() {
    session(&[
        ("mkdir /d", "0"),
        ("prepare", "0"),
        ("room", "0 4 3 2"),
        ("prepare 1", "?"),
        ("prepare ", "?"),
    ]);
}

#[test]
fn data_of_write() {
    session(&[
        ("create /x", "0 0"),
        ("write 0", "0 0"),
        ("write 0 ", "?"),
        ("write 0  X", "0 2"),
        ("write 0 a b ", "0 4"),
        ("seek 0 0 0", "0 0"),
        ("read 0 9", "0 6 205861206220"),
        ("write  0 X", "?"),
        ("write", "?"),
    ]);
}

#[test]
fn numbers() {
    session(&[
        ("create /x", "0 0"),
        ("seek 0 0 0000000000000000000000000012", "0 12"),
        ("seek 0 0 4294967295", "11"),
        ("seek 0 0 4294967296", "?"),
        ("seek 0 0 99999999999999999999999999", "?"),
        ("seek 0 0 -1", "?"),
        ("seek 0 0 +1", "?"),
        ("seek 0 0 0x1", "?"),
        ("seek 0\t0 1", "?"),
        ("seek 0 6 0", "11"),
        ("seek 0 4294967295 0", "11"),
        ("fstat 65536", "3"),
        ("fstat 4294967295", "3"),
        ("fstat 00", "0 0 2 1"),
    ]);
}

#[test]
fn lines() {
    assert_eq!(answers(""), "");
    assert_eq!(answers("\n"), "?\n");
    assert_eq!(answers("room"), "0 4 3 2\n");
    assert_eq!(answers("room\n"), "0 4 3 2\n");
    assert_eq!(answers("room\n\nroom"), "0 4 3 2\n?\n0 4 3 2\n");
    assert_eq!(answers("room\r\n"), "?\n");
    assert_eq!(
        answers("create /x\r\nls /"),
        "0 0\n0 1 780d000000000000000000000000\n"
    );
}

#[test]
fn the_form_is_judged_before_the_call() {
    session(&[
        ("read 9 2049", "?"),
        ("read 9 2048", "3"),
        ("read 0 0", "3"),
        ("room 1", "?"),
        (" room", "?"),
        ("room ", "?"),
        ("Room", "?"),
        ("ROOM", "?"),
        ("create", "?"),
        ("create ", "?"),
        ("create  /x", "?"),
        ("create /x ", "?"),
        ("create /x /y", "?"),
        ("link /x", "?"),
        ("link /x /y /z", "?"),
        ("seek 0 0", "?"),
        ("close", "?"),
        ("close x", "?"),
        ("destroy /x", "?"),
        ("room", "0 4 3 2"),
    ]);
}

#[test]
fn name_arguments() {
    session(&[
        ("create x", "2"),
        ("create //", "2"),
        ("create /a\tb", "0 0"),
        ("ls /", "0 1 6109620000000000000000000000"),
    ]);
    assert_eq!(
        serve(b"create /\xff\x80\nls /\ncreate /a\0b\n"),
        b"0 0\n0 1 ff80000000000000000000000000\n2\n"
    );
}

#[test]
fn long_lines() {
    let line = |length: usize| {
        let start = "write 0 ";
        format!(
            "create /x\n{start}{}\nfstat 0\n",
            "w".repeat(length - start.len())
        )
    };
    assert_eq!(answers(&line(1024)), "0 0\n0 1016\n0 1016 2 1\n");
    assert_eq!(answers(&line(1025)), "0 0\n?\n0 0 2 1\n");
    assert_eq!(answers(&line(100_000)), "0 0\n?\n0 0 2 1\n");
    assert_eq!(
        answers(&format!("{}\nroom", "\0".repeat(5000))),
        "?\n0 4 3 2\n"
    );
}

#[test]
fn listings() {
    session(&[
        ("ls /", "0 0"),
        ("mkdir /d", "0"),
        ("create /d/abcdefghijklmn", "0 0"),
        ("ls /d", "0 1 6162636465666768696a6b6c6d6e"),
        ("ls /d/abcdefghijklmn", "7"),
        ("mkdir /e", "0"),
        (
            "ls /",
            "0 2 64000000000000000000000000006500000000000000000000000000",
        ),
        ("rmdir /d", "13"),
        ("unlink /d/abcdefghijklmn", "0"),
        ("rmdir /d", "0"),
        ("ls /", "0 1 6500000000000000000000000000"),
    ]);
}
