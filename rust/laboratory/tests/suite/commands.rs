//! Exact small cases of each command, by hand.

use crate::calls::{bad, call, good, run};
use crate::folder::Folder;
use laboratory::Outcome;

/// Document 01's example. LUCKY counts in both windows, so that its weight is S(2) - S(2) = 0; TILT's is S(2) - S(1) = 16.
const LINES: &str = "\
O
E LUCKY
E LUCKY
E LUCKY
E TILT
C
O
E LUCKY
C
Q 2 LUCKY TILT
";

fn written(folder: &Folder, lines: impl AsRef<[u8]>) -> String {
    folder.write("lines.txt", lines)
}

/// The counts of window 1 are still buffered when it is removed, so that nothing of TILT is left to be taken up.
#[test]
fn each_line_is_answered_in_words() {
    let folder = Folder::new();
    let more = "# now without window 1\nR 1\nR 1\nF\nF\nM\nC\nQ 1 TILT\nQ 0 TILT\nQ 1\n";
    let file = written(&folder, format!("{LINES}{more}"));
    let expected = "   1  O -> window 1 | ledger: same
   2  E LUCKY -> counted | ledger: same
   3  E LUCKY -> counted | ledger: same
   4  E LUCKY -> counted | ledger: same
   5  E TILT -> counted | ledger: same
   6  C -> closed | ledger: same
   7  O -> window 2 | ledger: same
   8  E LUCKY -> counted | ledger: same
   9  C -> closed | ledger: same
  10  Q 2 LUCKY TILT -> 2 hits, 3 postings taken | ledger: same
        window 1  score 256
        window 2  score 0
  11  # now without window 1
  12  R 1 -> removed | ledger: same
  13  R 1 -> refused 7: no such live window | ledger: same
  14  F -> flushed | ledger: same
  15  F -> flushed | ledger: same
  16  M -> refused 13: no merge is in progress and none is due | ledger: same
  17  C -> refused 5: no window is open, one is, or the open one is named | ledger: same
  18  Q 1 TILT -> 0 hits, 0 postings taken | ledger: same
  19  Q 0 TILT -> refused 14: no identifiers, more than 5 or one twice, or a list of no places or more than 32 | ledger: same
  20  Q 1 -> refused 14: no identifiers, more than 5 or one twice, or a list of no places or more than 32 | ledger: same
19 lines understood, 0 not; 0 answers unlike the ledger's
";
    assert_eq!(run(&file, Outcome::Good), expected);
}

/// Each refusal that a few lines can bring about, with its number.
#[test]
fn refusals_are_told_with_number_and_sentence() {
    let folder = Folder::new();
    let long = "x".repeat(65);
    let many: String = (0..65).map(|number| format!("E {number}\n")).collect();
    let cases = [
        (
            format!("O\nE {long}\n"),
            "64",
            "refused 4: an identifier is empty or longer than 64 bytes",
        ),
        (
            "E A\n".into(),
            "64",
            "refused 5: no window is open, one is, or the open one is named",
        ),
        ("R 65536\n".into(), "64", "refused 7: no such live window"),
        (
            "O\nE A\nE B\n".into(),
            "1",
            "refused 8: a new identifier finds the register full",
        ),
        (
            format!("O\n{many}"),
            "65",
            "refused 9: a 65th identifier in one window",
        ),
        (
            "Q 33 A\n".into(),
            "64",
            "refused 14: no identifiers, more than 5 or one twice, or a list of no places or more than 32",
        ),
    ];
    for (lines, entries, refusal) in cases {
        let file = written(&folder, lines);
        let text = good(&["run", &file, "--entries", entries]);
        let answer = text.lines().rev().nth(1).expect("the last line's answer");
        assert!(
            answer.ends_with(&format!(" -> {refusal} | ledger: same")),
            "{answer}"
        );
    }
}

#[test]
fn bytes_that_do_not_show_are_shown_and_warned_of() {
    let folder = Folder::new();
    let file = written(
        &folder,
        b"\xef\xbb\xbfO\nO\r\nO\nE A\r\nE\tB\nE A\tB\nE \xc3\xa4\\\n\nC  \n",
    );
    let expected = r"   1  \xef\xbb\xbfO -> ? not understood: its first field is none of O, E, C, R, F, M and Q
      warning: the line begins with a byte order mark, three bytes that no editor shows
   2  O\x0d -> ? not understood: its first field is none of O, E, C, R, F, M and Q
      warning: the line has a carriage return, and it counts as a byte of its field
   3  O -> window 1 | ledger: same
   4  E A\x0d -> counted | ledger: same
      warning: the line has a carriage return, and it counts as a byte of its field
   5  E\x09B -> ? not understood: its first field is none of O, E, C, R, F, M and Q
      warning: the line has a tab, and a tab parts no fields: it counts as a byte of its field
   6  E A\x09B -> counted | ledger: same
      warning: the line has a tab, and a tab parts no fields: it counts as a byte of its field
   7  E \xc3\xa4\\ -> counted | ledger: same
   8   -> ? not understood: it is empty
   9  C   -> ? not understood: a field is empty: fields are parted by one space
4 lines understood, 5 not; 0 answers unlike the ledger's
";
    assert_eq!(run(&file, Outcome::Bad), expected);
}

#[test]
fn what_is_wrong_with_a_line_is_told() {
    let folder = Folder::new();
    let long = format!("E {}", "x".repeat(511));
    let cases = [
        ("O 1", "this command stands alone"),
        ("E", "E takes one identifier"),
        ("E A B", "E takes one identifier"),
        ("R", "R takes one window"),
        ("R 1 2", "R takes one window"),
        ("R -1", "a number has 1 to 5 digits"),
        ("R 123456", "a number has 1 to 5 digits"),
        ("Q", "Q takes the places in its list, and identifiers"),
        ("Q x A", "a number has 1 to 5 digits"),
        ("Q 1 A ", "a field is empty: fields are parted by one space"),
        ("open", "its first field is none of O, E, C, R, F, M and Q"),
        (&long, "it has more than 512 bytes"),
    ];
    for (line, why) in cases {
        let file = written(&folder, line);
        let last = "0 lines understood, 1 not; 0 answers unlike the ledger's";
        let expected = format!("   1  {line} -> ? not understood: {why}\n{last}\n");
        assert_eq!(run(&file, Outcome::Bad), expected);
    }
}

const HALF: &str =
    "refused 11: finished partitions would take more than half of the card | ledger: same";

/// Half of four blocks is two: the third flush finds no room, and no merge is due.
#[test]
fn a_card_at_its_end_is_told_of_once() {
    let folder = Folder::new();
    let file = written(&folder, "O\nE A\nF\nE A\nF\nE A\nF\nF\nC\nQ 1 A\n");
    let text = good(&["run", &file, "--blocks", "4"]);
    let expected = format!(
        "   5  F -> flushed | ledger: same
   6  E A -> counted | ledger: same
   7  F -> {HALF}
      the card is at its end: finished partitions take half of it and no merge is due, so
      nothing more can be written to it, and no call makes room there, a removal neither.
      What was counted is not lost: queries and means go on answering for it. Go on with a
      fresh card, or a larger one.
   8  F -> {HALF}
   9  C -> closed | ledger: same
  10  Q 1 A -> 1 hit, 3 postings taken | ledger: same
        window 1  score 0
10 lines understood, 0 not; 0 answers unlike the ledger's
"
    );
    assert!(text.ends_with(&expected), "{text}");
}

/// Half of sixteen blocks is eight: a merge is due when they are full, and makes room.
#[test]
fn a_card_that_a_merge_makes_room_on_is_not_at_its_end() {
    let folder = Folder::new();
    let file = written(&folder, format!("O\n{}M\nF\n", "E A\nF\n".repeat(9)));
    let text = good(&["run", &file]);
    let expected = format!(
        "  19  F -> {HALF}
  20  M -> stepped | ledger: same
  21  F -> flushed | ledger: same
21 lines understood, 0 not; 0 answers unlike the ledger's
"
    );
    assert!(text.ends_with(&expected), "{text}");
    assert!(!text.contains("at its end"), "{text}");
}

#[test]
fn a_moment_is_shown_in_short() {
    let folder = Folder::new();
    let file = written(&folder, LINES);
    let moment = format!("{file}:8");
    let expected = format!(
        "after line 8 of {file}
# display, not proved
windows: last 2, 1 closed and live, open 2 with 1 event: LUCKY
blocks 4: 0 finished, 0 output, 4 free, 0 other; last taken 3
   0  .    .    .    .
buffer: 3 of 128 postings
register: 2 of 5 entries
merge: none in progress, none due
# the plain ledger, not proved
window 1: LUCKY 3, TILT 1
window 2 (open, no result yet): LUCKY 1
"
    );
    assert_eq!(
        good(&["at", &moment, "--blocks", "4", "--entries", "5"]),
        expected
    );
    let fresh = good(&["at", &format!("{file}:0"), "--blocks", "4"]);
    assert!(fresh.starts_with(&format!("a fresh card, before line 1 of {file}\n")));
    assert!(fresh.contains("\nwindows: last 0, 0 closed and live, none open\n"));
    assert!(fresh.ends_with("\n# the plain ledger, not proved\nno live window\n"));
    let end = good(&["at", &file, "--blocks", "4"]);
    assert!(end.starts_with(&format!("after line 10 of {file}\n")));
}

#[test]
fn places_and_sums_are_listed() {
    let folder = Folder::new();
    let moment = format!("{}:9", written(&folder, LINES));
    let start = "# display, not proved\nwindow 1: 2 identifiers in 1 place\n";
    let lucky = "LUCKY  buffer  +3\nLUCKY  sum     +3\n";
    let ledger = "ledger: window 1 has LUCKY 3, TILT 1: same\n";
    let all = format!("{start}{lucky}TILT   buffer  +1\nTILT   sum     +1\n{ledger}");
    assert_eq!(good(&["where", &moment, "1"]), all);
    let named = format!("{start}{lucky}OTHER  no counts\nledger: window 1 has LUCKY 3: same\n");
    assert_eq!(good(&["where", &moment, "1", "LUCKY", "OTHER"]), named);
    let none =
        "# display, not proved\nwindow 3: no counts anywhere\nledger: window 3 is not live: same\n";
    assert_eq!(good(&["where", &moment, "3"]), none);
}

#[test]
fn a_score_is_reckoned_aloud() {
    let folder = Folder::new();
    let file = written(&folder, LINES);
    let (end, open) = (format!("{file}:9"), format!("{file}:8"));
    let start = "# reckoned for display, not proved\nN 2, S(N) 16\n";
    let asked = "# asked of the proved engine\n";
    let hit = format!(
        "{start}\
         LUCKY: count 3, weight S(4) = 32; F 2, weight S(2) - S(2) = 16 - 16 = 0; product 32 x 0 = 0\n\
         TILT: count 1, weight S(2) = 16; F 1, weight S(2) - S(1) = 16 - 0 = 16; product 16 x 16 = 256\n\
         total 256\n{asked}score 256: equal\n"
    );
    assert_eq!(good(&["why", &end, "1", "LUCKY", "TILT"]), hit);
    let none = format!(
        "{start}TILT: count 0; F 1, weight S(2) - S(1) = 16 - 0 = 16; no product\n\
         DOOR: count 0; F 0, weight 0; no product\n\
         none of them counts in window 2: no hit\n{asked}not listed: equal\n"
    );
    assert_eq!(good(&["why", &end, "2", "TILT", "DOOR"]), none);
    let still_open = good(&["why", &open, "2", "LUCKY"]);
    let expected = format!("window 2 is open: no result yet\n{asked}not listed: equal\n");
    assert!(still_open.ends_with(&expected), "{still_open}");
}

#[test]
fn a_query_and_means_are_answered() {
    let folder = Folder::new();
    let file = written(
        &folder,
        LINES.replace("O\nE LUCKY\nC\n", "O\nE LUCKY\nE LUCKY\nC\n"),
    );
    let hits =
        "2 hits, 3 postings taken | ledger: same\n  window 1  score 256\n  window 2  score 0\n";
    assert_eq!(good(&["query", &file, "2", "LUCKY", "TILT"]), hits);
    let cases = [
        ("LUCKY", "mean 2, remainder 1: 5 in 2 windows"),
        ("TILT", "mean 1, remainder 0: 1 in 1 window"),
        (
            "DOOR",
            "refused 15: the identifier counts in no closed window",
        ),
        (
            "",
            "refused 4: an identifier is empty or longer than 64 bytes",
        ),
    ];
    for (name, mean) in cases {
        let expected = format!("{name}: {mean} | ledger: same\n");
        assert_eq!(good(&["mean", &file, name]), expected);
    }
    let open = format!("{file}:8");
    let expected = "LUCKY: mean 3, remainder 0: 3 in 1 window | ledger: same\n";
    assert_eq!(good(&["mean", &open, "LUCKY"]), expected);
}

/// Flushes, blocks and entries as they stand, and how a plan goes on from there.
fn forecast(numbers: [&str; 3], end: &str) -> String {
    let [flushes, blocks, entries] = numbers;
    format!(
        "flushes: {flushes}\nblocks of finished partitions: {blocks}, half of the card\n\
         register entries used: {entries}\n{end}\nledger: same\n"
    )
}

const TO_ITS_END: &str = "goes to its end: no line would be refused";

/// Window 1 is closed at line 6 and window 2 open from line 7 to line 9.
#[test]
fn a_plan_is_told_to_its_end_or_to_where_it_stops() {
    let folder = Folder::new();
    let file = written(&folder, LINES);
    let plan = folder.write("plan.txt", "O\nE TILT\nE DOOR\nC\n# none\nO\nC\n");
    let ask = |line: usize| {
        let moment = format!("{file}:{line}");
        call(&["forecast", &moment, &plan, "--entries", "3"])
    };
    let start = "plan: 2 windows, 2 events\n";
    let fresh = forecast(["0", "0 of 8", "2 of 3"], TO_ITS_END);
    let known = forecast(["0", "0 of 8", "3 of 3"], TO_ITS_END);
    for (line, told) in [(0, fresh), (6, known.clone()), (10, known)] {
        let called = ask(line);
        assert_eq!(called.text, format!("{start}{told}"));
        assert!(matches!(called.result, Ok(Outcome::Good)), "{line}");
    }
    let stop = "stops at line 1, O: the open of the plan's window 1 would be refused 5: \
                no window is open, one is, or the open one is named\n      \
                a window is open at that moment: a plan can begin after its C, no earlier";
    let called = ask(8);
    let told = forecast(["0", "0 of 8", "2 of 3"], stop);
    assert_eq!(called.text, format!("{start}{told}"));
    assert!(matches!(called.result, Ok(Outcome::Bad)));
}

/// Plans that stop on a fresh card of four blocks, and where.
#[test]
fn the_line_is_told_at_which_a_plan_stops() {
    let folder = Folder::new();
    let file = written(&folder, LINES);
    let fresh = format!("{file}:0");
    let names = |count: usize| -> String { (0..count).map(|n| format!("E {n}\n")).collect() };
    let window = |count: usize| format!("O\n{}C\n", names(count));
    let long = "x".repeat(65);
    let cases = [
        (
            format!("O\nC\n# long\nO\nE A\nE {long}\nE B\nC\n"),
            ["0", "0 of 2", "1 of 70"],
            format!("line 6, E {long}: event 2 of the plan's window 2 would be refused 4: an identifier is empty or longer than 64 bytes"),
        ),
        (
            format!("{}O\n{}E more\nC\n", window(64), names(64)),
            ["0", "0 of 2", "64 of 70"],
            "line 132, E more: event 65 of the plan's window 2 would be refused 9: a 65th identifier in one window".into(),
        ),
        (
            format!("{}O\nE a\nE b\nE c\nE d\nE e\nE f\nE g\nC\n", window(64)),
            ["0", "0 of 2", "70 of 70"],
            "line 74, E g: event 7 of the plan's window 2 would be refused 8: a new identifier finds the register full".into(),
        ),
        (
            window(64).repeat(7),
            ["2", "2 of 2", "64 of 70"],
            "line 398, E 0: event 1 of the plan's window 7 would be refused 11: finished partitions would take more than half of the card".into(),
        ),
    ];
    for (plan, numbers, stop) in cases {
        let plan = folder.write("plan.txt", plan);
        let text = bad(&[
            "forecast",
            &fresh,
            &plan,
            "--blocks",
            "4",
            "--entries",
            "70",
        ]);
        let expected = forecast(numbers, &format!("stops at {stop}"));
        assert!(text.ends_with(&format!(" events\n{expected}")), "{text}");
    }
    let nothing = folder.write("plan.txt", "# nothing yet\n");
    let told = forecast(["0", "0 of 8", "2 of 64"], TO_ITS_END);
    let expected = format!("plan: 0 windows, 0 events\n{told}");
    assert_eq!(good(&["forecast", &file, &nothing]), expected);
}

/// A snapshot has no ledger; what does not show in a plan is warned of, each thing once.
#[test]
fn a_plan_is_told_from_a_snapshot_and_with_warnings() {
    let folder = Folder::new();
    let file = written(&folder, LINES);
    let saved = folder.path("moment.snapshot");
    good(&["save", &file, &saved]);
    let plan = folder.write("plan.txt", b"O\nE A\r\nE B\r\nE C\tD\nC\n");
    let told = forecast(["0", "0 of 8", "5 of 64"], TO_ITS_END);
    let told = told.replace(
        "ledger: same",
        "ledger: none, since a snapshot has no history",
    );
    let expected = format!(
        "plan: 1 window, 3 events\n\
         warning: line 2: the line has a carriage return, and it counts as a byte of its field\n\
         warning: line 4: the line has a tab, and a tab parts no fields: it counts as a byte of its field\n{told}"
    );
    assert_eq!(good(&["forecast", &saved, &plan]), expected);
}

/// An identifier is written as it is shown.
#[test]
fn identifiers_are_read_as_they_are_shown() {
    let folder = Folder::new();
    let file = written(&folder, b"O\nE \x00\xff\\\nC\n");
    let name = r"\x00\xff\\";
    let expected = format!("{name}: mean 1, remainder 0: 1 in 1 window | ledger: same\n");
    assert_eq!(good(&["mean", &file, name]), expected);
    assert_eq!(good(&["mean", &file, r"\x00\xFF\x5c"]), expected);
}

/// TILT is counted at line 5 and its window closed at line 6, alone until line 9.
#[test]
fn a_query_is_asked_at_every_moment() {
    let folder = Folder::new();
    let file = written(&folder, LINES);
    let ours = "Q 2 TILT: asked 11 times, on a fresh card and after every line, and 0 times between merge steps
lines 0 to 5   no hits; 0 to 1 postings taken
lines 6 to 8   windows 1 (0); 1 posting taken
lines 9 to 10  windows 1 (256); 1 posting taken
no merge step changed the hits
ledger: same after every line
";
    let query = ["moments", &file, "Q 2 TILT"];
    assert_eq!(good(&query), ours);
    let told = "forgotten-buffer: other hits, lines 6 to 10  no hits\nforgotten-buffer: our hits 6 times of 11\n";
    let forgotten = [&query[..], &["--against", "forgotten-buffer"]].concat();
    assert_eq!(good(&forgotten), format!("{ours}{told}"));
    let untold = "cut-identifiers: the same hits after every line\ncut-identifiers: our hits 11 times of 11\n";
    let cut = [&query[..], &["--against", "cut-identifiers"]].concat();
    assert_eq!(bad(&cut), format!("{ours}{untold}"));
}

/// A merge of 40 pairs takes three steps: two moments between them, and the last one's.
#[test]
fn moments_between_merge_steps_are_asked_too() {
    let folder = Folder::new();
    let events: String = ('A'..='E').map(|name| format!("E {name}\n")).collect();
    let windows = format!("O\n{events}C\nF\n").repeat(8);
    let file = written(&folder, windows);
    let text = good(&["moments", &file, "Q 1 A"]);
    let start = "Q 1 A: asked 65 times, on a fresh card and after every line, and 3 times between merge steps\n";
    assert!(text.starts_with(start), "{text}");
}

#[test]
fn a_page_has_its_data_and_no_identifier_ends_its_script() {
    let folder = Folder::new();
    let page = |lines: &str| good(&["page", &written(&folder, lines)]);
    let (plain, tricky) = (page("O\nE A\n"), page("O\nE </script>\n"));
    assert!(plain.contains("lines.txt") && !plain.contains("/*DATA*/"));
    let ends = |page: &str| page.matches("</script").count();
    assert_eq!(ends(&plain), ends(&tricky));
    assert!(ends(&plain) >= 1);
}

/// Other commands than `run` pass over lines that are none, and say so.
#[test]
fn lines_passed_over_are_told_of() {
    let folder = Folder::new();
    let file = written(&folder, "O\nX\nE A\nC\n\nQ 1 A\n");
    let plan = folder.write("plan.txt", "# nothing yet\n");
    let first = |text: String| text.lines().next().unwrap_or_default().to_string();
    let last = |text: String| text.lines().last().unwrap_or_default().to_string();
    let one = format!("after line 3 of {file}; 1 line was not understood");
    let moment = format!("{file}:3");
    assert_eq!(first(good(&["at", &moment])), one);
    for words in [
        &["at", &moment, "look", "card"][..],
        &["where", &moment, "1"],
        &["why", &moment, "1", "A"],
        &["query", &moment, "1", "A"],
        &["mean", &moment, "A"],
        &["forecast", &moment, &plan],
    ] {
        assert_eq!(first(good(words)), format!("# {one}"), "{words:?}");
    }
    let two = "; 2 lines were not understood";
    assert!(last(bad(&["against", "all", &file])).ends_with(two));
    assert!(last(bad(&["against", "read-output", &file])).ends_with(two));
    assert!(first(good(&["moments", &file, "Q 1 A"])).ends_with(two));
    let understood = format!("after line 1 of {file}");
    assert_eq!(first(good(&["at", &format!("{file}:1")])), understood);
}

/// Windows 1 and 2 lie in a partition each, window 3 in the buffer. TILT is in 1 and 3, LUCKY in 1 and 2.
const FLUSHED: &str =
    "O\nE LUCKY\nE LUCKY\nE LUCKY\nE TILT\nC\nF\nO\nE LUCKY\nC\nF\nO\nE TILT\nC\nQ 5 LUCKY TILT\n";

/// Of windows 2 and 3 one has LUCKY and one TILT, so that each weighs S(2) - S(1) = 16.
#[test]
fn a_query_is_asked_over_a_stretch() {
    let folder = Folder::new();
    let file = written(&folder, FLUSHED);
    let query = ["query", &file, "5", "LUCKY", "TILT"];
    let ask = |options: &[&str]| good(&[&query[..], options].concat());
    let hits =
        "2 hits, 2 postings taken | ledger: same\n  window 3  score 256\n  window 2  score 256\n";
    let display = "# display, not proved\nwindows 2 to 3: of 2 partitions passed over: 1\n";
    let both = ["--from", "2", "--to", "3"];
    assert_eq!(ask(&both), format!("{hits}{display}"));
    // A stretch that is told of all windows changes nothing but that it is told.
    let all = ask(&[]);
    let told = "# display, not proved\nwindows 1 to 65535: of 2 partitions passed over: none\n";
    assert_eq!(ask(&["--from", "1"]), format!("{all}{told}"));
    let none = "0 hits, 1 posting taken | ledger: same\n# display, not proved\nwindows 0 to 0: of 2 partitions passed over: 1 2\n";
    assert_eq!(ask(&["--from", "0", "--to", "0"]), none);
    let refused = "refused 17: a stretch whose first window exceeds its last | ledger: same\n";
    assert_eq!(ask(&["--from", "3", "--to", "2"]), refused);
    let saved = folder.path("moment.snapshot");
    good(&["save", &file, &saved]);
    let of_snapshot = good(&[&["query", &saved, "5", "LUCKY", "TILT"][..], &both].concat());
    assert_eq!(
        of_snapshot,
        format!("{hits}{display}").replace(" | ledger: same", "")
    );
}

#[test]
fn a_score_of_a_stretch_is_reckoned_aloud() {
    let folder = Folder::new();
    let file = written(&folder, FLUSHED);
    let why = |window: &str| {
        good(&[
            "why", &file, window, "LUCKY", "TILT", "--from", "2", "--to", "3",
        ])
    };
    let start = "# reckoned for display, not proved\nwindows 2 to 3: of 2 partitions passed over: 1\nN 2, S(N) 16\n";
    let weight = "F 1, weight S(2) - S(1) = 16 - 0 = 16";
    let hit = format!(
        "{start}LUCKY: count 1, weight S(2) = 16; {weight}; product 16 x 16 = 256\n\
         TILT: count 0; {weight}; no product\n\
         total 256\n# asked of the proved engine\nscore 256: equal\n"
    );
    assert_eq!(why("2"), hit);
    let outside = format!(
        "{start}LUCKY: count 3, weight S(4) = 32; {weight}; product 32 x 16 = 512\n\
         TILT: count 1, weight S(2) = 16; {weight}; product 16 x 16 = 256\n\
         window 1 is none of windows 2 to 3: no hit\n# asked of the proved engine\nnot listed: equal\n"
    );
    assert_eq!(why("1"), outside);
}

/// Every query of the file, and the one that is asked at every moment.
#[test]
fn queries_of_a_file_are_asked_over_a_stretch() {
    let folder = Folder::new();
    let file = written(&folder, FLUSHED);
    let text = good(&["run", &file, "--from", "2", "--to", "3"]);
    let label = "# answers of the proved engine; the ledger beside them is not proved\n# queries are asked over windows 2 to 3\n";
    assert!(text.starts_with(label), "{text}");
    let last = "  15  Q 5 LUCKY TILT -> 2 hits, 2 postings taken | ledger: same
        window 3  score 256
        window 2  score 256
15 lines understood, 0 not; 0 answers unlike the ledger's
";
    assert!(text.ends_with(last), "{text}");
    let moments = good(&["moments", &file, "Q 2 TILT", "--from", "2", "--to", "3"]);
    let expected = "Q 2 TILT over windows 2 to 3: asked 16 times, on a fresh card and after every line, and 0 times between merge steps
lines 0 to 13   no hits; 0 to 1 postings taken
lines 14 to 15  windows 3 (256); 1 posting taken
no merge step changed the hits
ledger: same after every line
";
    assert_eq!(moments, expected);
    let against = good(&[
        "against",
        "taken-outside",
        &file,
        "--from",
        "2",
        "--to",
        "3",
    ]);
    let expected = "# queries are asked over windows 2 to 3
taken-outside: postings taken count those of partitions passed over
told apart by line 15: Q 5 LUCKY TILT
  ours  2 hits, 2 postings taken
          window 3  score 256
          window 2  score 256
  wrong 2 hits, 4 postings taken
          window 3  score 256
          window 2  score 256
";
    assert_eq!(against, expected);
}

#[test]
fn a_partition_is_shown_with_its_windows() {
    let folder = Folder::new();
    let file = written(&folder, FLUSHED);
    let text = good(&["at", &format!("{file}:11"), "look", "partition", "1"]);
    let expected = "# display, not proved
partition 1 of 2: level 0, windows 1 to 1, 64 bytes, blocks 0; 2 identifiers, 2 postings
LUCKY  window 1  +3
TILT   window 1  +1
";
    assert_eq!(text, expected);
}
