//! How the example link answers on the command line.

use crate::count::Count;
use crate::{lines, Program};

/// Wrong choices, and a word that the answer must have.
const WRONG: [(&[&str], &str); 39] = [
    (&["--slot", "3"], "no choice '--slot'"),
    (&["file"], "no choice 'file'"),
    (&["--slots"], "--slots wants a value"),
    (&["--slots", "0"], "from 1 to 64"),
    (&["--slots", "65"], "from 1 to 64"),
    (&["--slots", "3", "--slots", "3"], "twice"),
    (&["--payload", "2341"], "from 1 to 2340"),
    (&["--window", "15"], "from 16 to 2048"),
    (&["--window", "-1"], "from 16 to 2048"),
    (&["--window", "1e2"], "from 16 to 2048"),
    (&["--slots", "3", "--delays", "1,2"], "each of 3 slots"),
    (&["--slots", "2", "--delays", "1,2,3"], "each of 2 slots"),
    (&["--delays", "1,,2"], "each of 3 slots"),
    (&["--delays", "1,2,"], "each of 3 slots"),
    (&["--ports", "0,0"], "each port once"),
    (&["--ports", "0,2"], "up to 1"),
    (&["--damage", "3"], "EPOCH:SLOT"),
    (&["--damage", "3:4"], "EPOCH:SLOT"),
    (&["--fail", "1:9-8"], "FROM not above TO"),
    (&["--hold-off", "5001"], "from 0 to 5000"),
    (&["--restore", "65536"], "from 0 to 5000"),
    (&["--hold-off"], "--hold-off wants a value"),
    (&["--numbers", "1,0"], "there is no --fixed"),
    (&["--fixed", "--numbers", "1,256"], "up to 255 for each of 2 slots"),
    (&["--fixed", "--slots", "3", "--numbers", "1,0"], "each of 3 slots"),
    (&["--fixed", "--add", "0:1"], "--add is of LCAS"),
    (&["--fixed", "--remove", "none"], "--remove is of LCAS"),
    (&["--fixed", "--lapse", "3"], "--lapse is of LCAS"),
    (&["--fixed", "--back", "0"], "--back is of LCAS"),
    (&["--vc12", "--fixed"], "--fixed does not go with --vc12"),
    (&["--vc12", "--record-heads", "none"], "--record-heads does not go with --vc12"),
    (&["--vc12", "--payload", "756"], "from 136 to 136"),
    (&["--vc12", "--window", "31"], "from 32 to 512"),
    (&["--vc12", "--window", "513"], "from 32 to 512"),
    (&["--vc12", "--number", "32"], "from 0 to 31"),
    (&["--seed", "99999999999999999999999"], "--seed"),
    (&["--doubtful"], "there is no --out"),
    (&["--file", "/no/such/file"], "cannot read"),
    (&["--out", "/no/such/folder/file"], "cannot write"),
];

fn refused(program: &Program, choices: &[&str], wanted: &str) -> bool {
    let output = program.run(&choices.iter().map(|c| c.to_string()).collect::<Vec<_>>());
    let said = String::from_utf8_lossy(&output.stderr).into_owned();
    let held = output.status.code() == Some(2) && output.stdout.is_empty() && said.lines().count() == 1 && said.contains(wanted);
    if !held {
        println!("differs\t{choices:?}\tstatus {:?}\tsaid {said:?}", output.status.code());
    }
    held
}

fn said(program: &Program, choices: &[&str]) -> (Option<i32>, String) {
    let output = program.run(&choices.iter().map(|c| c.to_string()).collect::<Vec<_>>());
    (output.status.code(), String::from_utf8_lossy(&output.stdout).into_owned())
}

pub fn check(program: &Program, count: &mut Count) {
    let held = WRONG.iter().filter(|(choices, wanted)| refused(program, choices, wanted)).count();
    count.note("wrong choices get one clear line and status 2", held == WRONG.len());

    let (status, help) = said(program, &["--help"]);
    let named = [
        "--slots", "--payload", "--window", "--delays", "--first", "--seed", "--epochs", "--damage", "--fail", "--hold-off", "--restore", "--fixed", "--vc12",
        "--numbers", "--file", "--out", "--behind", "--each", "--quiet",
    ];
    count.note("--help names the choices", status == Some(0) && named.iter().all(|n| help.contains(n)));

    let (status, text) = said(program, &[]);
    let read = lines::read(&text);
    let marked = |mark: &str| read.reports.iter().filter(|r| r.mark == mark).count();
    let told = |line: &str| text.lines().any(|l| l == line);
    // a slot's change, by what it became
    let became = |slot: &str, now: &str| text.lines().any(|l| l.starts_with(&format!("slot\t{slot}\twas\t")) && l.ends_with(&format!("\tnow\t{now}")));
    count.note("the default run ends well", status == Some(0) && read.last == "each sure byte was right");
    count.note("a damaged packet holds the epoch that it rules", read.reports.iter().any(|r| r.epoch == read.damaged[0] + 1 && r.mark == "held"));
    count.note(
        "a member fails, is set aside and comes back",
        told("port\t5\tFAIL\t2") && became("2", "DNU\t2") && told("port\t5\tOK\t2") && became("2", "NORM\t2"),
    );
    count.note("a member is added and one removed", became("5", "EOS\t5") && became("0", "IDLE\t255") && told("port\t3\tIDLE\t255"));
    let counted = ["held", "doubtful", "sure"].iter().all(|m| text.contains(&format!("\n{m}\tepochs\t{}", marked(m))));
    count.note("the end counts the epochs by their marks", counted && marked("sure") > 80);

    let said_of_epochs = |text: &str| text.lines().filter(|l| l.starts_with("epoch")).count();
    let (_, each) = said(program, &["--each"]);
    let others = |text: &str| text.lines().filter(|l| !l.starts_with("epoch")).map(str::to_string).collect::<Vec<_>>();
    count.note("epochs that say the same in a row are one line", said_of_epochs(&text) < 40 && text.lines().any(|l| l.starts_with("epochs\t")));
    count.note(
        "--each gives each epoch a line, and nothing else is another",
        lines::read(&each).reports == read.reports && said_of_epochs(&each) == read.reports.len() && others(&each) == others(&text),
    );
    // slot, number, was, old word and number, now, new word and number
    let slots: Vec<Vec<&str>> = text.lines().filter(|l| l.starts_with("slot\t")).map(|l| l.split('\t').collect()).collect();
    let last_of = |i: usize| slots[..i].iter().rev().find(|l| l[1] == slots[i][1]);
    count.note(
        "a slot is a line of its own, and says what it was and is",
        slots.len() > 8
            && slots.iter().all(|l| l.len() == 8 && l[3..5] != l[6..8])
            && (0..slots.len()).all(|i| last_of(i).map_or(slots[i][3..5] == ["IDLE", "255"], |before| before[6..8] == slots[i][3..5]))
            && !text.contains("board"),
    );
    let numbered = text.lines().filter(|l| l.starts_with("told\t") || l.starts_with("start\t")).filter_map(|l| l.split('\t').nth(2)?.parse::<u64>().ok());
    let numbered: Vec<u64> = numbered.collect();
    count.note("epochs are counted in one way", numbered.len() > 8 && numbered.iter().all(|e| *e < 160) && text.contains("told\tepoch\t"));

    measured(program, count);

    let (status, quiet) = said(program, &["--quiet"]);
    count.note("--quiet prints the end alone", status == Some(0) && text.ends_with(&quiet) && quiet.lines().count() < 20);

    let (_, at_once) = said(program, &["--slots", "2", "--delays", "0,40", "--fail", "1:400-500", "--at-once"]);
    let (_, in_time) = said(program, &["--slots", "2", "--delays", "0,40", "--fail", "1:400-500"]);
    let readable = |text: &str| text.matches("port\t1\treadable").count();
    count.note(
        "the slowest port comes back at an even pace of reports, and not where they are fetched at once",
        readable(&at_once) == 1 && readable(&in_time) == 2,
    );

    let (_, early) = said(program, &["--slots", "2", "--window", "128", "--delays", "0,40", "--fail", "1:0-200"]);
    let (_, late) = said(program, &["--slots", "2", "--window", "128", "--delays", "0,40", "--fail", "1:0-200", "--late", "40"]);
    count.note("a port that comes later may be slower where reports are late", readable(&early) == 0 && readable(&late) == 1);

    let heard = |hold_off: &str, restore: &str, port: &str| -> Vec<String> {
        let (_, text) = said(program, &["--slots", "2", "--fail", "1:400-560", "--hold-off", hold_off, "--restore", restore]);
        let told = |l: &&str| ["IDLE", "FAIL", "OK", "waiting"].iter().any(|w| l.starts_with(&format!("port\t{port}\t{w}")));
        text.lines().filter(told).map(|l| l.split('\t').skip(2).collect::<Vec<_>>().join(" ")).collect()
    };
    count.note("a failure shorter than the hold-off is not told as FAIL", heard("20", "0", "1") == ["OK 1", "waiting hold-off", "waiting none"]);
    count.note(
        "a longer one is told once, and once that it is over",
        heard("5", "10", "1") == ["OK 1", "waiting hold-off", "FAIL 1", "waiting none", "waiting restore", "OK 1", "waiting none"],
    );
    count.note("with no times nothing waits", heard("0", "0", "1") == ["OK 1", "FAIL 1", "OK 1"] && heard("5", "10", "0") == ["OK 0"]);

    let damages: Vec<String> = (40..80).step_by(2).map(|epoch| format!("{}:{}", epoch, epoch / 2 % 3)).collect();
    let (_, hit) = said(program, &["--slots", "3", "--delays", "0,9,30", "--damage", &damages.join(",")]);
    let held: Vec<u64> = lines::read(&hit).reports.iter().filter(|r| r.mark == "held").map(|r| r.epoch).collect();
    count.note(
        "packets damaged in any of their bits hold the epochs that they rule, and cost no port its step",
        held == (41..80).step_by(2).collect::<Vec<u64>>() && !hit.contains("out of step") && hit.contains("doubtful\tepochs\t0\n"),
    );

    let (_, hit) = said(program, &["--slots", "3", "--ports", "2,0,1", "--damage", "50:0,60:1,60:2", "--fail", "1:1200-1300"]);
    let told = |line: &str| hit.lines().any(|l| l == line);
    count.note(
        "a held or doubtful epoch names its cause and the ports behind it",
        told("epoch\t51\theld\tcause\ta ruling packet was refused\tport\t2")
            && told("epoch\t61\theld\tcause\ta ruling packet was refused\tports\t0\t1")
            && told("epoch\t75\theld\tcause\tan active port lacks a frame\tport\t1")
            && hit.lines().any(|l| l.starts_with("epochs\t76\t") && l.ends_with("\tcause\ta port has no whole ruling packet\tport\t1")),
    );

    let (_, behind) = said(program, &["--slots", "2", "--delays", "0,5000", "--fail", "0:0-99999", "--epochs", "600"]);
    count
        .note("epochs are told rightly behind a line that failed and would be far ahead", lines::read(&behind).reports.first().map_or(false, |r| r.epoch < 10));

    fixed(program, count);
    vc12(program, count);

    let file = program.path("gone.in");
    std::fs::write(&file, vec![7; 1_000_000]).expect("the file is written");
    let (status, gone) = said(program, &["--slots", "2", "--payload", "9", "--remove", "40:0,40:1", "--quiet", "--file", &file]);
    count.note("a file that no member carries any more is given up, and the status is 1", status == Some(1) && gone.contains("not all came out sure"));

    let (_, waiting) = said(program, &["--slots", "2", "--remove", "40:0,40:1", "--add", "0:0,0:1"]);
    count.note("a wait that is answered is closed by the far end", waiting.contains("wait\tclosed\tby the far end\n") && !waiting.contains("by lapse"));
    count.note(
        "a command under an open wait is answered 3 and given again",
        waiting.contains("remove\tslot\t1\tanswer\t3\n") && waiting.contains("remove\tslot\t1\tanswer\t0\n"),
    );

    let (_, unheard) = said(program, &["--slots", "2", "--back", "8000", "--lapse", "3", "--epochs", "40", "--remove", "9:0,9:1"]);
    count.note(
        "a wait that nobody answers lapses, and the line says so",
        unheard.contains("wait\tclosed\tby lapse\n") && unheard.contains("remove\tslot\t1\tanswer\t0\n"),
    );
}

/// How far ports lie behind the foremost: by their delays, also where these are too far apart, and by another foremost when that one fails.
fn measured(program: &Program, count: &mut Count) {
    let told = |choices: &[&str]| -> Vec<(u64, u64)> {
        let (_, text) = said(program, choices);
        let behind = text.lines().filter(|l| l.starts_with("port\t") && l.contains("\tbehind\t")).map(|l| l.split('\t').collect::<Vec<_>>());
        behind.map(|l| (l[1].parse().expect("a port"), l[3].parse().expect("frames"))).collect()
    };
    count.note("--behind says how many frames each port lies behind the foremost", told(&["--delays", "0,33,7", "--behind"]) == [(0, 0), (2, 7), (1, 33)]);
    count.note("and without it nobody does", told(&["--delays", "0,33,7"]).is_empty());
    count.note("of ports and not of slots", told(&["--delays", "0,33,7", "--ports", "2,1,0", "--behind"]) == [(2, 0), (0, 7), (1, 33)]);
    count.note("of VC-12 too", told(&["--vc12", "--delays", "0,32", "--behind"]) == [(0, 0), (1, 32)]);
    count.note("where delays are too far apart for receiving to begin too", told(&["--delays", "0,49", "--behind"]) == [(0, 0), (1, 49)]);
    let failed = told(&["--delays", "0,33,7", "--fail", "0:400-500", "--behind"]);
    count.note("and again where the foremost one fails, and where it is back", failed == [(0, 0), (2, 7), (1, 33), (1, 26), (2, 0), (0, 0), (1, 33), (2, 7)]);
}

/// Groups of VC-12: members come and go, every packet of some epochs has a bit changed, and a port fails and comes back.
fn vc12(program: &Program, count: &mut Count) {
    let damages: Vec<String> = (40..80).step_by(2).map(|epoch| format!("{}:{}", epoch, epoch / 2 % 3)).collect();
    let (status, hit) = said(program, &["--vc12", "--delays", "32,0,17", "--damage", &damages.join(",")]);
    let read = lines::read(&hit);
    let held: Vec<u64> = read.reports.iter().filter(|r| r.mark == "held").map(|r| r.epoch).collect();
    count.note(
        "VC-12: a packet with one bit changed holds the epoch that it rules, and costs no port its step",
        status == Some(0) && read.last == "each sure byte was right" && held == (41..80).step_by(2).collect::<Vec<u64>>() && !hit.contains("out of step"),
    );
    let (status, text) = said(program, &["--vc12", "--slots", "3", "--add", "0:0,0:1,60:2", "--remove", "100:0", "--fail", "1:1500-1560"]);
    let told = |line: &str| text.lines().any(|l| l == line);
    count.note(
        "VC-12: a slot that is added, one removed, and a port that fails and comes back",
        status == Some(0)
            && told("slot\t2\twas\tIDLE\t63\tnow\tADD\t2")
            && told("slot\t0\twas\tNORM\t0\tnow\tIDLE\t63")
            && told("port\t1\tFAIL\t1")
            && text.ends_with("each sure byte was right\n"),
    );
    // the port that is ahead gets its frame first in each frame time, so that the latest tags are never nearer; when all is sent they are
    let begins = |delays: &str| lines::read(&said(program, &["--vc12", "--delays", delays, "--epochs", "100"]).1).begun.first().map(|(time, _)| *time);
    let (near, far) = (begins("0,32"), begins("0,33"));
    count.note("VC-12: delays W-32 apart begin, W-31 apart need not", near == Some(95) && far.map_or(true, |time| time >= 3200));
}

/// Groups without LCAS: any order of numbers, wrong ones, a dark port, and damage that nothing detects.
fn fixed(program: &Program, count: &mut Count) {
    let marks = |text: &str, mark: &str| lines::read(text).reports.iter().filter(|r| r.mark == mark).count();
    let (status, text) = said(program, &["--fixed", "--numbers", "2,0,1", "--delays", "5,0,40", "--ports", "1,2,0"]);
    let told = |line: &str| text.lines().any(|l| l == line);
    let silent = ["told\t", "reply\t", "wait\t", "link\tback", "was\t"].iter().all(|word| !text.contains(word));
    count.note(
        "a group without LCAS gives the client's bytes in the order of its numbers",
        status == Some(0)
            && lines::read(&text).last == "each sure byte was right"
            && marks(&text, "sure") > 140
            && marks(&text, "held") + marks(&text, "doubtful") == 0,
    );
    count.note(
        "its slots say FIXED and their numbers, its ports are OK under these, and nothing is replied",
        silent && told("link\tFIXED") && told("slot\t0\tsends\tFIXED\t2") && told("port\t1\tOK\t2") && told("port\t2\tOK\t0") && told("port\t0\tOK\t1"),
    );
    let wrong = ["0,1,1", "0,1,3", "1,2,3", "0,0,0", "0,1,255"].iter().all(|numbers| {
        let (status, text) = said(program, &["--fixed", "--numbers", numbers, "--delays", "5,0,40"]);
        status == Some(0) && text.ends_with("no byte was sure\n") && marks(&text, "held") > 140 && marks(&text, "doubtful") == 0
    });
    count.note("numbers that are not 0 to X-1, each once, are held and never doubtful", wrong);
    let (_, shared) = said(program, &["--fixed", "--numbers", "0,2,1,2", "--ports", "3,1,2,0"]);
    count.note("and ports with one number are named", shared.contains("\tcause\tnumbers of active and DNU ports repeat\tports\t0\t1\n"));
    let dark = (0..3).all(|port| {
        let (status, text) = said(program, &["--fixed", "--slots", "3", "--numbers", "2,0,1", "--fail", &format!("{port}:400-800")]);
        let read = lines::read(&text);
        let in_fail = |r: &&lines::Report| (26..50).contains(&r.epoch);
        status == Some(0)
            && read.last == "each sure byte was right"
            && marks(&text, "doubtful") == 0
            && read.reports.iter().filter(in_fail).all(|r| r.mark == "held")
            && read.reports.iter().filter(|r| r.epoch > 60).all(|r| r.mark == "sure")
    });
    count.note("one dark port holds everything until it is back", dark);
    // the bits that are changed go by the epoch, so that two packets of one epoch have the same ones changed
    let damaged = |slots: &[u64]| -> Vec<(Option<i32>, String)> {
        let run = |epochs: std::ops::Range<u64>| {
            let damages: Vec<String> = epochs.flat_map(|epoch| slots.iter().map(move |slot| format!("{epoch}:{slot}"))).collect();
            said(program, &["--fixed", "--slots", "2", "--epochs", "500", "--damage", &damages.join(",")])
        };
        vec![run(20..120), run(120..220), run(220..320), run(320..420)]
    };
    let one = damaged(&[0]);
    let seen = |mark: &str| one.iter().map(|(_, text)| marks(text, mark)).sum::<usize>();
    count.note(
        "one packet of an epoch damaged is held or makes no difference",
        one.iter().all(|(status, text)| *status == Some(0) && text.ends_with("each sure byte was right\n")) && seen("held") > 100 && seen("doubtful") == 0,
    );
    let two = damaged(&[0, 1]);
    count.note(
        "two that come to have each other's number are sure and wrong, and the status is 1",
        two.iter().any(|(status, text)| *status == Some(1) && text.contains("a sure byte was wrong\tepochs\t")),
    );
}
