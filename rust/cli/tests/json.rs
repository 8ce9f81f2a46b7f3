//! Results for programs.

mod common;

use common::*;

fn text(ran: Ran) -> String {
    String::from_utf8(ran.good()).unwrap()
}

#[test]
fn a_check_and_a_history() {
    let k = Logged::k();
    let of = |command: &str, direction: &str, entity: &str, time: &str, answer: &[u8]| {
        run_on(answer, &[command, &k.hex(), direction, entity, time, "-", "--json"])
    };
    let head = |direction: &str, entity: u32, time: u64| {
        format!("{{\"accepted\":true,\"commitment\":\"{}\",\"direction\":\"{direction}\",\"entity\":{entity},\"time\":\"{time}\"", k.hex())
    };
    let answer = k.answer(1, 2, 35);
    let found = head("backward", 2, 35) + ",\"verdict\":\"found\",\"found\":\"30\",\"records\":3";
    assert_eq!(text(of("check", "backward", "2", "35", &answer)), found.clone() + "}\n");
    let versions = "{\"entity\":1,\"time\":\"10\"},{\"entity\":2,\"time\":\"20\"},{\"entity\":2,\"time\":\"30\",\"previous\":1,\"source\":0,\"kind\":7}";
    assert_eq!(text(of("show", "backward", "2", "35", &answer)), format!("{found},\"versions\":[{versions}]}}\n"));
    let not_yet = ",\"verdict\":\"not yet\",\"first\":\"20\"}\n";
    assert_eq!(text(of("check", "only", "2", "19", &k.answer(0, 2, 19))), head("only", 2, 19) + not_yet);
    let none_so_late = ",\"verdict\":\"none so late\",\"last\":\"30\"}\n";
    assert_eq!(text(of("check", "forward-after", "2", "31", &k.answer(5, 2, 31))), head("forward-after", 2, 31) + none_so_late);
    assert_eq!(text(of("check", "5", "3", "31", &k.answer(5, 3, 31))), head("forward-after", 3, 31) + ",\"verdict\":\"no entity\"}\n");
    let refused = of("check", "backward", "2", "35", &answer[1..]);
    assert_eq!((refused.status, refused.text()), (1, "{\"accepted\":false,\"number\":16,\"position\":0,\"cause\":\"letter not one due\"}\n"));
}

/// The list is the verdict, so `check` and `show` say the same.
#[test]
fn a_list() {
    let k = Logged::k();
    for (entity, from, until, said) in [
        (1, 10, 40, r#""listed","count":2,"versions":[{"entity":1,"time":"10"},{"entity":1,"time":"40"}]"#),
        (2, 21, 29, r#""listed","count":0,"versions":[]"#),
        (3, 0, 9, r#""no entity""#),
    ] {
        let words = [entity.to_string(), from.to_string(), until.to_string()];
        let asked = format!(r#""direction":"between","entity":{entity},"time":"{from}","until":"{until}""#);
        let expected = format!("{{\"accepted\":true,\"commitment\":\"{}\",{asked},\"verdict\":{said}}}\n", k.hex());
        for (command, direction) in [("check", "between"), ("show", "6")] {
            let ran = run_on(&k.between(entity, from, until), &[command, &k.hex(), direction, &words[0], &words[1], &words[2], "-", "--json"]);
            assert_eq!(text(ran), expected);
        }
    }
    let refused = run_on(&k.between(1, 10, 39), &["check", &k.hex(), "between", "1", "10", "40", "-", "--json"]);
    assert_eq!(refused.status, 1);
    assert!(refused.text().starts_with(r#"{"accepted":false,"number":15,"position":393,"#), "{}", refused.text());
}

#[test]
fn a_listing() {
    let versions = text(run_on(&Logged::k().log, &["list", "-", "--json"]));
    let first = "[{\"entity\":1,\"time\":\"10\"},{\"entity\":2,\"time\":\"20\"},";
    let flows = "{\"entity\":2,\"time\":\"30\",\"kind\":7,\"source\":1,\"source_time\":\"10\"},{\"entity\":1,\"time\":\"40\",\"kind\":8,\"source\":2,\"source_time\":\"30\"}]\n";
    assert_eq!(versions, format!("{first}{flows}"));
}

#[test]
fn a_mark() {
    let folder = Folder::new("json_mark");
    let good = folder.host("good", "answer \"$@\"");
    let bad = folder.host("bad", "printf x");
    let ran = run(&["mark", &good, "--seed", "5", "--json"]);
    assert!(text(ran).starts_with(&format!("{{\"seed\":\"5\",\"hosts\":[{{\"host\":\"{good}\",\"asked\":224,\"accepted\":224,\"no_answer\":0,")));
    let ran = run(&["mark", &good, &bad, "--seed", "5", "--json"]);
    assert_eq!(ran.status, 1);
    assert!(ran.text().contains("\"accepted\":0,\"no_answer\":0,") && ran.text().contains("\"refused\":{\"16\":224},\"said\":\"first not accepted: "), "{}", ran.text());
}
