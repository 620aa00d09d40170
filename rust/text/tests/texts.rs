//! A text may be written in many ways; each mistake has its line and its reason; no text that was cut is one.

use shuntberry_text::house::{self, Moment};
use shuntberry_text::lines::{said, Mistake, Mistakes, Names, MAX_NAME, SHOWN_MISTAKES};
use shuntberry_text::table::{
    listing, parse, parse_with_possible, parse_without_possible, print, print_with_possible, Set,
    Table,
};
use shuntberry_text::{LANGUAGE, MAX_GROUPS, MAX_STATES};
use std::fs;

/// The texts of `tests/files` are worked out by Python, in the one form that is printed.
#[test]
fn texts_of_files() {
    let mut count = 0;
    for entry in fs::read_dir("../../tests/files").unwrap() {
        let path = entry.unwrap().path();
        if path.extension().map_or(false, |kind| kind == "txt") {
            let text = fs::read_to_string(&path).unwrap();
            let parsed = parse(text.as_bytes()).unwrap();
            assert_eq!(
                print(&parsed.table, &parsed.names),
                text,
                "{}",
                path.display()
            );
            count += 1;
        }
    }
    assert!(count >= 30, "only {count} texts in tests/files");
}

/// Names, comments, order, spaces, line ends: the same table.
#[test]
fn ways_to_write_it() {
    let plain = "states 4\ninitial 0\nforbidden 2 3\nresting none\ngroup 0 1\ngroup none\nstep 0 -> 1 2\nstep 1 -> 0\nend\n";
    let table = parse(plain.as_bytes()).unwrap().table;
    assert_eq!(print(&table, &Names::new()), plain);
    for same in [
        "# a comment\n\nstates 4 # and one more\n\tinitial   0\nforbidden 3 2\ngroup 1 0\ngroup none\nstep 0->2 1\nstep 1->0\n  end\t# of it\n",
        "step 0 -> 2\nstep 1 -> 0\nstep 0 -> 1\ngroup 0 1\nforbidden 3\ngroup none\nforbidden 2\nresting none\ninitial 00\nstates 4\nend\n",
        "step home -> menu Über.1\nstate 0 home\ninitial home\nforbidden Über.1 3\nstate 2 Über.1\nstep 1 -> home\nstates 4\nstate 1 menu\ngroup menu 0\ngroup none\n# end\nend\n",
        "\u{feff}states 4\r\ninitial 0\r\nforbidden 2 3\r\ngroup 0 1\r\ngroup none\r\nstep 0 -> 1 2\r\nstep 1 -> 0\r\nend\r\n",
    ] {
        assert_eq!(parse(same.as_bytes()).unwrap().table, table, "{same}");
    }
    let named = parse(b"states 2\nstate 1 end-1\ninitial none\nforbidden none\nend\n").unwrap();
    assert_eq!(
        named.names.into_iter().collect::<Vec<_>>(),
        [(1, "end-1".to_string())]
    );
    assert_eq!(parse(b"states 0\nend\n").unwrap().table, Table::default());
    assert_eq!(
        parse(b"initial none\nforbidden none\nstates 0\nresting none\nend\n")
            .unwrap()
            .table,
        Table::default()
    );
}

/// Lines with what must be said of them.
type Said = [(usize, &'static str)];

/// A text with a mistake on each line but the first three; what is said of a line is typed here from what a reader should be told.
#[test]
fn mistakes() {
    let head = "states 5\ninitial 0\nforbidden none\n";
    let cases: &[(&str, &Said)] = &[
        (
            "initail 1",
            &[(4, "not with 'initail'; did you mean 'initial'?")],
        ),
        (
            "0 -> 1",
            &[(4, "not with '0'; a step is written step 0 -> STATE..")],
        ),
        (
            "INITIAL 1",
            &[(4, "not with 'INITIAL'; did you mean 'initial'?")],
        ),
        ("END", &[(4, "not with 'END'; did you mean 'end'?")]),
        (
            "initial: 1\nstate: 1 home\nResting: home\nstep 1 -> home",
            &[
                (4, "'initial:' has a colon: it is written initial"),
                (5, "'state:' has a colon: it is written state"),
                (6, "'Resting:' has a colon: it is written resting"),
            ],
        ),
        (
            "states: 5",
            &[
                (4, "stands on line 1 already"),
                (4, "'states:' has a colon: it is written states"),
            ],
        ),
        ("up: 1", &[(4, "group or step, and not with 'up:'")]),
        (
            "maybe 0 -> 1",
            &[(4, "group or step, and not with 'maybe'")],
        ),
        ("states 5", &[(4, "stands on line 1 already")]),
        (
            "initial 1 5",
            &[(4, "no state 5: with states 5 they are 0 to 4")],
        ),
        ("initial 1 1", &[(4, "state 1 stands on this line already")]),
        (
            "initial 1\ninitial 2 1 0",
            &[
                (5, "state 1 is initial by line 4 already"),
                (5, "state 0 is initial by line 2 already"),
            ],
        ),
        ("initial none", &[(4, "line 2 is one")]),
        (
            "forbidden 1",
            &[(
                4,
                "forbidden none goes with no other line of forbidden, and line 3 is one",
            )],
        ),
        ("resting 1 none", &[(4, "none stands alone")]),
        ("resting", &[(4, "an empty one is written resting none")]),
        ("group", &[(4, "an empty one is written group none")]),
        ("group 1 2 1", &[(4, "state 1 stands on this line already")]),
        (
            "group -1",
            &[(4, "'-1' is no number, and no line gives a state this name")],
        ),
        (
            "group 1,2",
            &[(4, "'1,2' has a comma: states are separated by spaces alone")],
        ),
        (
            "group 1, 2; 3",
            &[(4, "'1,' has a comma"), (4, "'2;' has a semicolon")],
        ),
        (
            "state 1, home\ngroup home",
            &[(4, "'1,' has a comma: a number stands alone")],
        ),
        (
            "state 1 home,\ngroup home 2\nstep home -> 2",
            &[(4, "'home,' has a comma: a name stands alone")],
        ),
        ("state 1 off, home", &[(4, "'off,' has a comma")]),
        ("group 1.5", &[(4, "'1.5' is no number")]),
        (
            "group = 1 : 2",
            &[
                (4, "'=' is no number, and no line gives a state this name; words stand apart by spaces alone"),
                (4, "':' is no number, and no line gives a state this name; words stand apart by spaces alone"),
            ],
        ),
        (
            "group 1 // both\nresting 1 //",
            &[
                (4, "'//' is no number, and no line gives a state this name; a comment begins with #"),
                (4, "'both' is no number"),
                (5, "a comment begins with #"),
            ],
        ),
        (
            "state 1 home\ngroup [home] home.",
            &[
                (5, "'[home]' is no number, and no line gives a state this name; it is written home"),
                (5, "'home.' is no number, and no line gives a state this name; it is written home"),
            ],
        ),
        (
            "group 99999999999999999999999",
            &[(4, "no state 99999999999999999999999")],
        ),
        ("step 1", &[(4, "a step is written")]),
        ("step 1 2", &[(4, "a step is written")]),
        ("step 1 ->", &[(4, "a step is written")]),
        ("step -> 1", &[(4, "a step is written")]),
        ("step 1 2 -> 3", &[(4, "with one state before the arrow")]),
        ("step 1 -> 2 -> 3", &[(4, "a step is written")]),
        ("step 1 => 2", &[(4, "'=>' is no arrow: it is written ->")]),
        ("step 1 ⇒ 2", &[(4, "'⇒' is no arrow: it is written ->")]),
        ("step 1 > 2", &[(4, "'>' is no arrow: it is written ->")]),
        ("step 5 -> 6", &[(4, "no state 5"), (4, "no state 6")]),
        ("step 1 -> none", &[(4, "none stands alone")]),
        (
            "step 1 -> 2 3\nstep 2 -> 1\nstep 1 -> 3",
            &[(6, "the step 1 -> 3 stands on line 4 already")],
        ),
        ("state 1 none", &[(4, "'none' is no name")]),
        ("state 1 end", &[(4, "'end' is no name")]),
        ("state 1 a-name-/", &[(4, "is neither none nor end")]),
        (
            "resting end",
            &[(4, "'end' is no number, and no line gives")],
        ),
        ("end 1", &[(4, "'end' stands alone, on the last line")]),
        ("End", &[(4, "not with 'End'")]),
        ("state 1 2nd", &[(4, "'2nd' is no name")]),
        ("state 1 a/b", &[(4, "'a/b' is no name")]),
        (
            "state 1 hard limit",
            &[(4, "a name has no spaces: state 1 hard-limit")],
        ),
        (
            "state 1 \"hard limit\"\ninitial hard limit\ngroup hard-limit",
            &[(4, "a name has no spaces: state 1 hard-limit")],
        ),
        (
            "state 1 2nd limit",
            &[(4, "state 1 NAME, with a name of one word")],
        ),
        (
            "state 1",
            &[(4, "no name stands behind the number: state 1 NAME")],
        ),
        ("state", &[(4, "no name stands behind state")]),
        ("state -1 late", &[(4, "'-1' is no number")]),
        ("state 5 late\ngroup late 1", &[(4, "no state 5")]),
        (
            "state 1 a\nstate 2 a",
            &[(5, "state 1 has the name a, by line 4 already")],
        ),
        (
            "state 1 a\nstate 1 b",
            &[(5, "state 1 has the name a, by line 4 already")],
        ),
        (
            "state 1 a\ngroup b",
            &[(
                5,
                "'b' is no number, and no line gives a state this name; state N b would",
            )],
        ),
        (
            "state 1 hard-limit\ngroup hard_limt\ngroup HARD-LIMIT",
            &[
                (5, "this name; did you mean 'hard-limit'?"),
                (6, "this name; did you mean 'hard-limit'?"),
            ],
        ),
        (
            "state 1 a\ngroup a 1",
            &[(5, "state 1 stands on this line already")],
        ),
        ("group \u{1}", &[(4, "control character")]),
        (
            "initial 9\nstate 5 late\nstates 5\nup",
            &[
                (4, "no state 9"),
                (5, "no state 5"),
                (6, "stands on line 1 already"),
                (7, "not with 'up'"),
            ],
        ),
        (
            "resting a\n\n# a comment\nresting b",
            &[(4, "'a' is no number"), (7, "'b' is no number")],
        ),
    ];
    for (tail, expected) in cases {
        holds(format!("{head}{tail}\n").as_bytes(), expected);
    }
    let groups = "group 1\n".repeat(MAX_GROUPS + 1);
    holds(
        format!("{head}{groups}").as_bytes(),
        &[(MAX_GROUPS + 4, "at most 64")],
    );
    holds(
        format!("{head}group {}\n", "x".repeat(5000)).as_bytes(),
        &[(
            4,
            "'xxxxxxxxxxxxxxxxxxxxxxxxxxxxxxxxxxxxxxxx..' is no number",
        )],
    );
}

/// What a text must not leave out: without it the table would be safe, or none.
#[test]
fn missing_facts() {
    let (states, initial, forbidden) = (
        "how many states there are",
        "which states are initial",
        "which states are forbidden",
    );
    let cases: &[(&[u8], &Said)] = &[
        (b"", &[(1, states), (1, initial), (1, forbidden)]),
        (b"\n", &[(2, states), (2, initial), (2, forbidden)]),
        (b"states 3\nstep 0 -> 1\n", &[(3, initial), (3, forbidden)]),
        (b"states 3\ninitial 0\n", &[(3, forbidden)]),
        (b"states 3\nforbidden 1\n\n\n", &[(5, initial)]),
        (
            b"initial 0\nforbidden 700\n",
            &[(2, "no state 700: a table has at most 512"), (3, states)],
        ),
        (
            b"states\ninitial 0\nforbidden 1\n",
            &[(1, "states N, with one number")],
        ),
        (
            b"states 3 4\ninitial 0\nforbidden 1\n",
            &[(1, "states N, with one number")],
        ),
        (
            b"states three\ninitial 0\nforbidden 1\n",
            &[(1, "'three' is no number of states")],
        ),
        (
            b"states 513\ninitial 0\nforbidden 1\n",
            &[(1, "513 states are too many: a table has at most 512")],
        ),
        (
            b"states 0\ninitial 0\n",
            &[(2, "no state 0: with states 0 there is none")],
        ),
        (
            b"states 0\ngroup none\n",
            &[(2, "a table without states has no groups")],
        ),
        (
            b"states 1\ninitial 1\nforbidden none\n",
            &[(2, "with states 1 there is 0 alone")],
        ),
        (
            b"States: 1\ninitial 0\nforbidden none\n",
            &[(1, "'States:' has a colon: it is written states")],
        ),
        (
            b"states 1\ninitial \xff\nforbidden none\n",
            &[(2, "not UTF-8"), (4, initial)],
        ),
    ];
    for (text, expected) in cases {
        holds(text, expected);
    }
}

/// A text is what it looks like: what a reader cannot see, or what moves other letters, is refused, also in a comment.
#[test]
fn hidden_characters() {
    let hidden = [
        '\u{a0}',
        '\u{ad}',
        '\u{34f}',
        '\u{61c}',
        '\u{115f}',
        '\u{1680}',
        '\u{180e}',
        '\u{2003}',
        '\u{200b}',
        '\u{200d}',
        '\u{200e}',
        '\u{2028}',
        '\u{2029}',
        '\u{202a}',
        '\u{202e}',
        '\u{202f}',
        '\u{2060}',
        '\u{2066}',
        '\u{2069}',
        '\u{2800}',
        '\u{3000}',
        '\u{3164}',
        '\u{fe0f}',
        '\u{feff}',
        '\u{ffa0}',
        '\u{e0001}',
        '\u{e0041}',
    ];
    for c in hidden {
        for place in ["# a", "group 1 # why", "group 1"] {
            let (front, back) = place.split_at(place.len() - 1);
            let said = format!("states 5\ninitial 0\nforbidden none\n{front}{c}{back}\n");
            holds(said.as_bytes(), &[(4, "cannot be seen")]);
        }
    }
    for c in ['\u{1}', '\u{1b}', '\u{7f}', '\u{85}', '\r'] {
        let said = format!("states 5\ninitial 0\nforbidden none\n# a{c}b\n");
        holds(said.as_bytes(), &[(4, "control character")]);
    }
    // What can be seen may stand in a comment, in every writing.
    let said = "states 5\ninitial 0\nforbidden none\n# é ж λ 文 ✓ → \u{301}\nend\n";
    assert!(parse(said.as_bytes()).is_ok());
}

/// The letters of names are of one alphabet.
#[test]
fn alphabets() {
    let head = "states 5\ninitial 0\nforbidden none\n";
    for good in [
        "state 1 Größe-2\nstate 2 señal_x\nstate 3 Ɏ",
        "state 1 όριο\nstate 2 Αρχή.2",
        "state 1 предел\nstate 2 Ёлка-1",
    ] {
        assert!(
            parse(format!("{head}{good}\nend\n").as_bytes()).is_ok(),
            "{good}"
        );
    }
    for bad in [
        "state 1 \u{430}b",
        "state 1 a\u{3bf}",
        "state 1 文",
        "state 1 a\u{660}",
        "state 1 \u{2167}",
        "state 1 ×",
        "state 1 µ",
        "state 1 ʹ",
        "state 1 \u{250}",
        "state 1 ａ",
        "state 1 e\u{301}",
        "state 1 _a",
        "state 1 ϣ",
    ] {
        holds(format!("{head}{bad}\n").as_bytes(), &[(4, "is no name")]);
    }
    holds(
        format!("{head}state 1 limit\nstate 2 лимит\nstate 3 όριο\n").as_bytes(),
        &[
            (5, "has Cyrillic letters, and line 4 a name of Latin ones"),
            (6, "has Greek letters, and line 4 a name of Latin ones"),
        ],
    );
    let long = "x".repeat(MAX_NAME);
    assert!(parse(format!("{head}state 1 {long}\nend\n").as_bytes()).is_ok());
    holds(
        format!("{head}state 1 {long}x\n").as_bytes(),
        &[(4, "64 characters at most")],
    );
}

/// States that are numbered by the order of their lines.
#[test]
fn states_by_their_order() {
    let numbered = "states 3\nstate 0 off\nstate 1 home\nstate 2 hard-limit\ninitial off\nforbidden hard-limit\nresting none\ngroup off home\nstep off -> home hard-limit\nend\n";
    let expected = parse(numbered.as_bytes()).unwrap();
    let lines = [
        "state off",
        "state home",
        "state hard-limit",
        "initial off",
        "forbidden hard-limit",
        "group home off",
        "step off→home→", // replaced below: an arrow needs no space
    ];
    let ordered = lines.join("\n").replace("home→", " -> home hard-limit");
    let ordered = ordered.replace("off→ ->", "off→") + "\nend\n";
    assert!(ordered.contains("step off→ home hard-limit"), "{ordered}");
    assert_eq!(parse(ordered.as_bytes()).unwrap(), expected);
    assert_eq!(print(&expected.table, &expected.names), numbered);
    // Only the order among the states counts: a state may be used before its line.
    let mixed = "step off -> home\nstate off # the first\ninitial off\nstep off -> hard-limit\nstate home\ngroup off home\nforbidden hard-limit\n\nstate hard-limit\nend\n";
    assert_eq!(parse(mixed.as_bytes()).unwrap(), expected);
    let moved = "state home\nstate off\ninitial off\nforbidden none\nend\n";
    let moved = parse(moved.as_bytes()).unwrap();
    assert_eq!((moved.table.rows.len(), moved.table.initial[0]), (2, 0b10));
    // As many as a table has, and one more.
    let all = |count: usize| -> String { (0..count).map(|s| format!("state s{s}\n")).collect() };
    let rest = "initial s0\nforbidden none\n";
    let most = parse(&ended((all(MAX_STATES) + rest).as_bytes())).unwrap();
    assert_eq!(most.table.rows.len(), MAX_STATES);
    holds(
        (all(MAX_STATES + 1) + rest + "group s512\n").as_bytes(),
        &[(
            MAX_STATES + 1,
            "this state is one too many: a table has at most 512",
        )],
    );
}

/// What is wrong in a text of that form. A mistake of a `state` line is none of the lines that use the name.
#[test]
fn mistakes_by_order() {
    let head = "state off\nstate home\ninitial off\n";
    let cases: &[(&str, &Said)] = &[
        (
            "group 1",
            &[(5, "1 is a number, and the states of this text are given without: write the state's name")],
        ),
        ("step off -> 1 home", &[(5, "1 is a number")]),
        (
            "state hard limit\ngroup hard-limit\nstep hard -> limit",
            &[(5, "a name has no spaces: state hard-limit; several states have a line each")],
        ),
        ("state off", &[(5, "the state off stands on line 1 already")]),
        (
            "state a/b\ngroup a/b\nstep off -> a/b",
            &[(5, "'a/b' is no name")],
        ),
        (
            "state end\ngroup end",
            &[(5, "'end' is no name")],
        ),
        ("state αλφα\nresting αλφα", &[(5, "has Greek letters")]),
        ("state", &[(5, "no name stands behind state: state NAME")]),
        (
            "group up",
            &[(5, "'up' is no state: no line gives one this name; state up would")],
        ),
        (
            "group hmoe",
            &[(5, "'hmoe' is no state: no line gives one this name; did you mean 'home'?")],
        ),
        ("group off off", &[(5, "state off stands on this line already")]),
        ("initial home off", &[(5, "state off is initial by line 3 already")]),
        (
            "step off -> home\nstep off → home",
            &[(6, "the step off -> home stands on line 5 already")],
        ),
        (
            "state last,\nresting last\ngroup last, off",
            &[(5, "'last,' has a comma"), (7, "'last,' has a comma")],
        ),
    ];
    for (tail, expected) in cases {
        holds(
            format!("{head}forbidden none\n{tail}\n").as_bytes(),
            expected,
        );
    }
    // A text whose every state is a mistake has no others.
    holds(
        b"state hard limit\ninitial hard-limit\nforbidden none\ngroup limit\n",
        &[(1, "a name has no spaces: state hard-limit")],
    );
    // Texts that lost their states are no tables.
    holds(
        b"initial none\nforbidden none\n",
        &[(
            3,
            "no line says how many states there are: states N, or a line state NAME for each",
        )],
    );
}

/// A text has one form; that it has both is one mistake, wherever the second begins.
#[test]
fn mixed_forms() {
    let one = "a text numbers all of its states, by states N and state N NAME, or none of them";
    for (text, line, other) in [
        (
            "states 2\nstate off\nstate home",
            2,
            "line 1 numbers the states",
        ),
        (
            "states 2\nstate 0 off\nstate home",
            3,
            "line 1 numbers the states",
        ),
        (
            "state off\nstate home\nstates 2",
            3,
            "line 1 gives a state without a number",
        ),
        ("state 0 off\nstate home", 2, "line 1 numbers the states"),
        (
            "state off\nstate 1 home",
            2,
            "line 1 gives a state without a number",
        ),
        (
            "state off\nstates two\nstate home",
            2,
            "line 1 gives a state without a number",
        ),
        (
            "# first\nstates 2\nstate one first\nstate two home\nstate off",
            3,
            "line 2 numbers the states",
        ),
    ] {
        let text = format!("{text}\ninitial off\nforbidden home\nstep off -> home 0\n");
        let mistakes = parse(&ended(text.as_bytes())).unwrap_err();
        let mistake = mistakes
            .first()
            .iter()
            .find(|mistake| mistake.reason.contains(one));
        let mistake = mistake.unwrap_or_else(|| panic!("{mistakes:?} in {text}"));
        assert!(
            mistake.line == line && mistake.reason.starts_with(other),
            "{mistakes:?} in {text}"
        );
        let others = usize::from(text.contains("two\n")) + usize::from(text.contains("0 off"));
        assert!(mistakes.count <= 1 + others, "{mistakes:?} in {text}");
    }
}

/// The examples of what `help text` prints are texts, and it says every fact, and how many there may be.
#[test]
fn the_language() {
    let lines: Vec<&str> = LANGUAGE.lines().collect();
    assert!(lines.iter().all(|line| line.chars().count() <= 110));
    let examples: Vec<String> = blocks(&lines)
        .filter(|block| {
            block
                .trim_end()
                .lines()
                .last()
                .map_or(false, |line| line.trim_start().starts_with("end"))
        })
        .filter(|block| !block.contains("STATE"))
        .collect();
    assert_eq!(examples.len(), 3, "{examples:?}");
    let first = parse(examples[0].as_bytes()).unwrap();
    assert_eq!(
        (first.names.len(), listing(&first.table.marked)),
        (5, "4".to_string())
    );
    assert_eq!(first.names[&4], "over-hard-limit");
    let second = parse(examples[1].as_bytes()).unwrap();
    assert_eq!((second.names.len(), second.table.rows.len()), (1, 3));
    let house = house::parse(examples[2].as_bytes()).unwrap();
    assert_eq!((house.windows.len(), house.closed.len()), (2, 1));
    for fact in [
        "states",
        "state",
        "initial",
        "forbidden",
        "resting",
        "group",
        "step",
        "possible",
        "end",
    ] {
        assert!(
            lines
                .iter()
                .any(|line| line.starts_with(&format!("    {fact} "))),
            "no {fact}"
        );
    }
    for most in [MAX_STATES, MAX_GROUPS, MAX_NAME] {
        assert!(LANGUAGE.contains(&format!(" {most}")), "no {most}");
    }
}

/// The indented parts, each with its empty lines; what follows an empty line without being indented ends one.
fn blocks<'l>(lines: &'l [&'l str]) -> impl Iterator<Item = String> + 'l {
    let is_apart = |line: &&str| !line.is_empty() && !line.starts_with("    ");
    lines.split(move |line| is_apart(line)).map(|block| {
        let text = block.join("\n");
        format!("{}\n", text.trim_matches('\n'))
    })
}

/// Steps that are only possible are printed behind the others, by names where there are some, and read again.
#[test]
fn possible_steps_printed() {
    let text = "states 3\nstate 2 over\ninitial 0\nforbidden over\nresting none\nstep 0 -> 1\nstep 1 -> 0\npossible 1 -> 1 over\npossible over -> 0\nend\n";
    let read = parse_with_possible(text.as_bytes()).unwrap();
    let mut rows = vec![Set::default(); 3];
    for &(from, to) in &read.possible {
        rows[from][to / 64] |= 1 << (to % 64);
    }
    assert_eq!(print_with_possible(&read.table, &read.names, &rows), text);
    let none = vec![Set::default(); 3];
    let plain = print(&read.table, &read.names);
    assert_eq!(print_with_possible(&read.table, &read.names, &none), plain);
    assert!(!plain.contains("possible"));
    assert_eq!(
        print_with_possible(&Table::default(), &Names::new(), &[]),
        "states 0\nend\n"
    );
}

/// Steps that are only possible: for the command options alone.
#[test]
fn possible_steps() {
    let text = "states 3\ninitial 0\nforbidden 2\nstep 0 -> 0\npossible 0 -> 1 2\npossible 1->2\n";
    let parsed = parse_with_possible(&ended(text.as_bytes())).unwrap();
    assert!(parsed.possible.into_iter().eq([(0, 1), (0, 2), (1, 2)]));
    assert_eq!(listing(&parsed.table.rows[0]), "0");
    holds(
        text.as_bytes(),
        &[(5, "the command options"), (6, "the command options")],
    );
    let elsewhere = parse_without_possible(&ended(text.as_bytes()), "not here").unwrap_err();
    assert!(elsewhere.first().iter().all(|one| one.reason == "not here"));
    assert_eq!((elsewhere.count, elsewhere.first()[0].line), (2, 5));
    for (line, reason) in [
        ("possible 0 -> 0", "stands on line 4 already"),
        (
            "possible 0 -> 1\npossible 0 -> 1",
            "stands on line 5 already",
        ),
        ("possible 0 -> 1\nstep 0 -> 1", "stands on line 5 already"),
        (
            "possible 0 1",
            "a step is written possible STATE -> STATE..",
        ),
        ("possible 0 -> 3", "no state 3"),
    ] {
        let text = format!("states 3\ninitial 0\nforbidden 2\nstep 0 -> 0\n{line}\n");
        let mistakes = parse_with_possible(&ended(text.as_bytes())).unwrap_err();
        assert_eq!(mistakes.count, 1, "{mistakes:?}");
        assert!(mistakes.first()[0].reason.contains(reason), "{mistakes:?}");
    }
}

/// Texts of any length take little time and room: the first mistakes are kept, in the order of their lines, and the others counted.
#[test]
fn long_texts() {
    let bad = "x\n".repeat(1_000_000);
    let mistakes = parse(&ended(bad.as_bytes())).unwrap_err();
    assert_eq!(mistakes.count, 1_000_003);
    assert_eq!(mistakes.first().len(), SHOWN_MISTAKES);
    assert!(mistakes
        .first()
        .iter()
        .map(|mistake| mistake.line)
        .eq(1..=SHOWN_MISTAKES));
    // The mistakes of a later look at the text stand before those of an earlier one.
    let late = format!("group x\n{}", "states 1\n".repeat(200));
    let mistakes = parse(&ended(late.as_bytes())).unwrap_err();
    assert_eq!((mistakes.count, mistakes.first()[0].line), (202, 1));
    let numbers: String = (0..400_000).map(|i| format!(" {i}")).collect();
    holds(
        format!("initial{numbers}\nforbidden none\n").as_bytes(),
        &[
            (1, "more words"),
            (3, "how many states"),
            (3, "which states are initial"),
        ],
    );
    // As many words as a line can have.
    let all: String = (0..MAX_STATES).map(|s| format!(" {s}")).collect();
    let text = format!("states {MAX_STATES}\ninitial none\nforbidden none\nstep 0 ->{all}\n");
    assert!(parse(&ended(text.as_bytes())).is_ok());
    holds(
        format!("states {MAX_STATES}\ninitial none\nforbidden none\nstep 0 ->{all} 0\n").as_bytes(),
        &[(4, "more words")],
    );
}

/// A text that was cut says so, and what to add; behind its end there is nothing.
#[test]
fn ends() {
    let whole = "states 2\ninitial 0\nforbidden 1\nend\n";
    assert!(parse(whole.as_bytes()).is_ok());
    let (cut, add) = ("the text may be cut", "if nothing is missing, add");
    for (text, line) in [
        ("states 2\ninitial 0\nforbidden 1\n", 3),
        ("states 2\ninitial 0\nforbidden 1", 3),
        ("states 2\ninitial 0\nforbidden 1\n\n", 4),
        ("states 2\ninitial 0\nforbidden 1\n# end\n", 4),
        ("states 2\ninitial 0\nforbidden 1 # end\n", 3),
        ("states 2\ninitial 0\nforbidden 1\nend", 4),
        ("states 2\ninitial 0\nforbidden 1\r\nend\r", 4),
        ("states 2\ninitial 0\nforbidden 1\nend # of", 4),
    ] {
        mistaken(text.as_bytes(), &[(line, cut)]);
        mistaken(text.as_bytes(), &[(line, add)]);
    }
    mistaken(
        b"states 2\ninitial 0\nforbidden 1\nend of it\n",
        &[(4, "'end' stands alone"), (4, cut)],
    );
    mistaken(b"", &[(1, cut)]);
    // An end that is written in another way is told as that, and only behind all that is said.
    let other = "and not 'end'; if nothing is missing, write end";
    for word in ["END", "End", "end.", "end:", "END;", "\"end\"", "-end-"] {
        let named = format!("{cut}: its last line is '{word}', {other}");
        let whole = format!("states 2\ninitial 0\nforbidden 1\n{word}");
        for (behind, line) in [("", 4), ("\n", 4), ("\n\n# more\n", 4), (" # of it\r\n", 4)] {
            let text = format!("{whole}{behind}");
            let mistakes = parse(text.as_bytes()).unwrap_err();
            assert_eq!(
                (mistakes.count, mistakes.first()[0].line),
                (1, line),
                "{text}"
            );
            assert_eq!(mistakes.first()[0].reason, named, "{text}");
        }
        mistaken(format!("{whole}\nstep 0 -> 1\n").as_bytes(), &[(5, cut)]);
        mistaken(format!("{whole} of it\n").as_bytes(), &[(4, cut)]);
    }
    // UTF-16, as some editors and shells write it
    let wide = |order: fn(u16) -> [u8; 2]| -> Vec<u8> {
        let mark = std::iter::once(0xfeff);
        mark.chain(whole.encode_utf16()).flat_map(order).collect()
    };
    for text in [wide(u16::to_le_bytes), wide(u16::to_be_bytes)] {
        mistaken(
            &text,
            &[(1, "this text is UTF-16, and not UTF-8: save it as UTF-8")],
        );
    }
    // What comes of a cut is not said; what is no text at all, is.
    mistaken(b"states 2\ninitial home\nstate 0 ho", &[(3, cut)]);
    mistaken(
        b"states 2\n\xff\0\nend\nend\n",
        &[(2, "not UTF-8"), (4, "goes on behind its 'end'")],
    );
    for behind in [
        "\n",
        "\r\n",
        " ",
        "\t",
        "#",
        "# a comment\n",
        "end\n",
        "end",
        whole,
    ] {
        mistaken(
            format!("{whole}{behind}").as_bytes(),
            &[(5, "goes on behind its 'end'")],
        );
    }
}

/// The texts that the tests of cuts are about, by who reads them.
enum Kind {
    Table,
    House,
    Log,
}

impl Kind {
    fn parse(&self, text: &[u8]) -> Result<(), Mistakes> {
        match self {
            Kind::Table => parse(text).map(|_| ()),
            Kind::House => house::parse(text).map(|_| ()),
            Kind::Log => logged(text),
        }
    }
}

/// A log is any words.
fn logged(text: &[u8]) -> Result<(), Mistakes> {
    let mut mistakes = Mistakes::default();
    for (line, words) in said(text)? {
        if let Err(reason) = words {
            let reason = reason.to_string();
            mistakes.push(Mistake { line, reason });
        }
    }
    match mistakes.is_empty() {
        true => Ok(()),
        false => Err(mistakes),
    }
}

/// Numbers by xorshift: any text may come of them.
struct Numbers(u64);

impl Numbers {
    fn below(&mut self, limit: usize) -> usize {
        self.0 ^= self.0 << 13;
        self.0 ^= self.0 >> 7;
        self.0 ^= self.0 << 17;
        (self.0 % limit as u64) as usize
    }

    /// Some of the first states.
    fn set(&mut self, n: usize) -> Set {
        let mut set = Set::default();
        set[0] = self.below(1 << n) as u64;
        set
    }

    fn one_of<T: Copy>(&mut self, all: &[T]) -> T {
        all[self.below(all.len())]
    }

    /// A table as `decode` prints it, with names.
    fn table_text(&mut self) -> String {
        let n = self.below(14);
        let mut table = Table::default();
        if n > 0 {
            table.initial = self.set(n);
            table.marked = self.set(n);
            table.resting = self.set(n);
            table.groups = (0..self.below(3)).map(|_| self.set(n)).collect();
            table.rows = (0..n).map(|_| self.set(n)).collect();
        }
        let endings = ["end-", "the-end", "bend", "e"];
        let by_order = n > 0 && self.below(2) == 0;
        let names: Names = (0..n)
            .filter(|state| by_order || state % 3 == 1)
            .map(|state| (state, format!("{}{state}", self.one_of(&endings))))
            .collect();
        let text = match by_order {
            true => without_numbers(&print(&table, &names)),
            false => print(&table, &names),
        };
        let read = parse(text.as_bytes()).unwrap();
        assert!(read.table == table && read.names == names, "{text}");
        text
    }

    fn house_text(&mut self) -> String {
        let mut lines = vec!["window none".to_string()];
        let windows = self.below(4);
        if windows > 0 {
            lines = (1..=windows)
                .map(|k| format!("window friday {:02}:30 for {k}h", self.below(24)))
                .collect();
        }
        for day in 0..self.below(5) {
            lines.push(format!("closed 2026-1{}-0{}", self.below(3), day + 1));
        }
        lines.push("end\n".to_string());
        lines.join("\n")
    }

    fn log_text(&mut self) -> String {
        let mut text = String::new();
        for _ in 0..self.below(40) {
            let words = ["0", "12", "home", "end-1", "bend"];
            text += self.one_of(&words);
            text += self.one_of(&[" ", "\n", "\n\n"]);
        }
        text + "\nend\n"
    }

    /// The same text in another dress.
    fn dressed(&mut self, text: &str) -> String {
        match self.below(5) {
            0 => text.replace('\n', "\r\n"),
            1 => format!("\u{feff}# end\n{text}"),
            2 => text.replace('\n', " # größer: end\n"),
            3 => text
                .replace('\n', "\n# end\n\n")
                .replace("end\n# end\n\n", "end\n"),
            _ => text.to_string(),
        }
    }
}

/// The same text in the form without numbers; each state of it has a name.
fn without_numbers(text: &str) -> String {
    let line = |line: &str| match line.split(' ').collect::<Vec<_>>()[..] {
        ["states", _] => String::new(),
        ["state", _, name] => format!("state {name}\n"),
        _ => format!("{}\n", line.replace(" -> ", "\u{2192}")),
    };
    text.lines().map(line).collect()
}

/// 200 texts of tables, houses and logs: each is read, and none of what is left where it is cut, wherever that is.
#[test]
fn cuts() {
    let mut numbers = Numbers(0x2545_f491_4f6c_dd1d);
    let mut cuts = 0;
    for i in 0..200 {
        let (kind, plain) = match i % 5 {
            0..=2 => (Kind::Table, numbers.table_text()),
            3 => (Kind::House, numbers.house_text()),
            _ => (Kind::Log, numbers.log_text()),
        };
        let text = numbers.dressed(&plain).into_bytes();
        let shown = String::from_utf8_lossy(&text);
        if let Err(mistakes) = kind.parse(&text) {
            panic!("{mistakes:?} in {shown}");
        }
        for length in 0..text.len() {
            let left = &text[..length];
            let mistakes = match kind.parse(left) {
                Ok(()) => panic!("{length} bytes are enough of {shown}"),
                Err(mistakes) => mistakes,
            };
            let says_so = |mistake: &Mistake| mistake.reason.contains("may be cut");
            assert!(
                mistakes.first().iter().any(says_so) && mistakes.count <= 2,
                "{mistakes:?} at {length} of {shown}"
            );
            cuts += 1;
        }
    }
    assert!(cuts > 20_000, "only {cuts} cuts");
}

/// The text of which the last two bytes once made another table, and a safe one.
#[test]
fn the_cut_that_was_safe() {
    let resting: String = (1..13).map(|state| format!(" {state}")).collect();
    let text = format!("states 13\ninitial 0\nstep 0 -> 12\nresting{resting}\nforbidden 12\n");
    assert!(parse(&ended(text.as_bytes())).is_ok());
    for length in [text.len(), text.len() - 1, text.len() - 2] {
        mistaken(&text.as_bytes()[..length], &[(5, "the text may be cut")]);
    }
}

/// A text with its last line.
fn ended(text: &[u8]) -> Vec<u8> {
    [text, b"end\n"].concat()
}

/// The mistakes of a text, which has its end behind it, are these and no others, in the order of their lines.
fn holds(text: &[u8], expected: &Said) {
    mistaken(&ended(text), expected);
}

fn mistaken(text: &[u8], expected: &Said) {
    let shown = String::from_utf8_lossy(text);
    let mistakes = parse(text)
        .err()
        .unwrap_or_else(|| panic!("no mistake in {shown}"));
    assert_eq!(mistakes.count, expected.len(), "{mistakes:?} in {shown}");
    for (mistake, (line, reason)) in mistakes.first().iter().zip(expected) {
        assert_eq!(mistake.line, *line, "{mistakes:?} in {shown}");
        assert!(
            mistake.reason.contains(reason),
            "{mistakes:?} in {shown}, not {reason}"
        );
    }
}

/// Each mistake of a house says what it is.
#[test]
fn mistakes_of_houses() {
    for (line, reason) in [
        (
            "window Monday 22:00 for 6h",
            "'Monday' is no day of the week: it is written in lower case, monday",
        ),
        (
            "window MONDAY 22:00 for 6h",
            "it is written in lower case, monday",
        ),
        (
            "window mon 22:00 for 6h",
            "they are saturday, sunday, monday",
        ),
        (
            "window monday :30 for 6h",
            "':30' is no time from 00:00 to 23:59: its hour is missing, as in 00:30",
        ),
        (
            "window monday 22 for 6h",
            "its minute is missing, as in 22:00",
        ),
        (
            "window monday 22: for 6h",
            "its minute is missing, as in 22:00",
        ),
        ("window monday 9:00 for 6h", "it is written 09:00"),
        ("window monday 22.15 for 6h", "it is written 22:15"),
        ("window monday 22h15 for 6h", "it is written 22:15"),
        (
            "window monday 24:00 for 6h",
            "midnight is 00:00 of the next day",
        ),
        (
            "window monday 22:60 for 6h",
            "'22:60' is no time from 00:00 to 23:59",
        ),
        (
            "window monday 10pm for 6h",
            "'10pm' is no time from 00:00 to 23:59",
        ),
        (
            "window monday for 6h",
            "the time is missing: a window is written",
        ),
        (
            "window monday 22:00 for 6",
            "its unit is missing, d, h or m",
        ),
        (
            "window monday 22:00 for 8d",
            "'8d' is no length from 1m to 7d",
        ),
        (
            "Window monday 22:00 for 6h",
            "not with 'Window'; did you mean 'window'?",
        ),
        (
            "closed: 2026-12-25",
            "'closed:' has a colon: it is written closed",
        ),
        (
            "closed 2026-02-29",
            "'2026-02-29' is no date from 2000-01-01 on, as 2026-12-25: February 2026 has 28 days",
        ),
        ("closed 2028-02-30", ": February 2028 has 29 days"),
        ("closed 2100-02-29", ": February 2100 has 28 days"),
        ("closed 2026-04-31", ": April 2026 has 30 days"),
        ("closed 2026-01-00", ": January 2026 has 31 days"),
        ("closed 2026-13-01", ": there is no month 13"),
        ("closed 2026-00-01", ": there is no month 0"),
        ("closed 2026-2-9", ": it is written 2026-02-09"),
        ("closed 2026/12/25", ": it is written 2026-12-25"),
        ("closed 29.2.2026", ": February 2026 has 28 days"),
        (
            "window monday 22:00:30 for 6h",
            "it is written 22:00, without seconds",
        ),
        (
            "close 2026-12-25",
            "not with 'close'; did you mean 'closed'?",
        ),
        (
            "closed 25.12.2026",
            "'25.12.2026' is no date from 2000-01-01 on, as 2026-12-25: it is written 2026-12-25",
        ),
    ] {
        let text = format!("window friday 22:00 for 6h\n{line}\nend\n");
        let mistakes = house::parse(text.as_bytes()).unwrap_err();
        assert_eq!(mistakes.count, 1, "{mistakes:?}");
        let Mistake {
            line: at,
            reason: said,
        } = &mistakes.first()[0];
        assert!(
            *at == 2 && said.contains(reason),
            "{mistakes:?}, not {reason}"
        );
    }
    for (word, why) in [
        ("2026-12-24", Some("its hour and minute are missing")),
        ("2026-12-24T", Some("its hour and minute are missing")),
        ("2026-12-24T:05", Some("its hour is missing, as in 00:05")),
        ("2026-12-24 9:05", Some("it is written 09:05")),
        ("2026-12-32T09:05", None),
        ("2026-02-29", None),
        (
            "2026-12-24T09:05:00",
            Some("it is written 09:05, without seconds"),
        ),
        ("2026-12-24T09:05Z", None),
        // which is the day, and which the month?
        ("12/11/2026", None),
        ("1999-02-29T09:05", None),
        ("1600-13-01", None),
        ("2026-12", None),
        ("x-y-zzzz", None),
        ("", None),
    ] {
        assert!(Moment::of(word).is_none(), "{word}");
        assert_eq!(Moment::amiss(word).as_deref(), why, "{word}");
    }
}
