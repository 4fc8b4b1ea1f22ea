//! Every answer through the two safe calls, and what the lent memory holds after them.
use wuroike::{check, check_project, Checker, Counts, Line, Model, Place, Refusal, WrongFile, STACK, WORK};

/// The loop a = b, b = a in an operator: document 01's example. Names are P, a, b, n.
const KINDS: [u8; 23] = [1, 2, 3, 3, 3, 11, 3, 3, 7, 23, 3, 7, 23, 3, 13, 3, 8, 44, 13, 3, 8, 44, 3];
const WORDS: [u64; 23] = [1, 0, 0, 0, 1, 3, 0, 1, 1, 0, 1, 2, 0, 2, 0, 1, 1, 2, 0, 1, 2, 1, 0];
const TEXT: &[u8] = b"P\0a\0b\0n\0";

/// The example with other work memory and room: the answer, and whether the work memory and how many first lines were written. Both calls
/// answer and leave the same.
fn ask(kinds: &[u8], words: &[u64], text: &[u8], work: usize, room: usize) -> (Result<Counts, Refusal>, bool, usize) {
    let (mut work, mut lines) = (vec![7; work], vec![Line::default(); room]);
    let (mut again, mut stored) = (work.clone(), lines.clone());
    let told = check(kinds, words, text, &mut work, &mut lines);
    assert_eq!(check_project(kinds, words, text, &mut again, &mut stored), told);
    assert!(work == again && lines == stored);
    let zero = work.iter().all(|w| *w == 0);
    assert!(zero || work.iter().all(|w| *w == 7));
    let written = lines.iter().take_while(|l| **l != Line::default()).count();
    assert!(lines[written..].iter().all(|l| *l == Line::default()));
    (told, zero, written)
}

#[test]
fn a_report() {
    let model = Model::new(KINDS.to_vec(), WORDS.to_vec(), TEXT.to_vec());
    let mut checker = Checker::new(4);
    let report = checker.check(&model).unwrap();
    let names: Vec<_> = report.lines().iter().map(|l| model.name(l.name().unwrap()).unwrap()).collect();
    assert_eq!(names, [b"a", b"b", b"a"]);
    assert!(report.lines().iter().zip(0..).all(|(l, i)| l.code() == 60 && l.step() == Some(i) && l.equation().is_none()));
    assert!(report.lines().iter().all(|l| l.place() == Some(Place::Node) && l.number() == 0));
    assert_eq!((report.followed(), report.is_clean()), (2, false));
    assert_eq!(ask(&KINDS, &WORDS, TEXT, WORK, 3), (Ok(Counts { lines: 3, followed: 2 }), true, 3));
    assert_eq!(ask(&KINDS, &WORDS, TEXT, WORK + 5, 9), (Ok(Counts { lines: 3, followed: 2 }), true, 3));
}

#[test]
fn refusals_but_more_lines_change_nothing() {
    let kept = |told: Refusal| (Err(told), false, 0);
    assert_eq!(ask(&KINDS, &WORDS[1..], TEXT, WORK, 3), kept(Refusal::Sizes));
    assert_eq!(ask(&[0; 4097], &[0; 4097], TEXT, WORK, 3), kept(Refusal::Sizes));
    assert_eq!(ask(&KINDS, &WORDS, TEXT, WORK - 1, 3), kept(Refusal::ShortWork(4095)));
    assert_eq!(ask(&KINDS, &WORDS, b"P\0a\0b\0b\0", WORK, 3), kept(Refusal::BadName(3)));
    assert_eq!(ask(&[1, 255], &[0, 0], TEXT, WORK, 3), kept(Refusal::BadKind(1)));
    assert_eq!(ask(&[1, 255], &[4097, 0], TEXT, WORK, 3), kept(Refusal::BadWord(0)));
    assert_eq!(ask(&KINDS[..9], &WORDS[..9], TEXT, WORK, 3), kept(Refusal::NoProject(9)));
    for room in 0..3 {
        assert_eq!(ask(&KINDS, &WORDS, TEXT, WORK, room), (Err(Refusal::MoreLines(3)), true, room));
    }
}

#[test]
fn too_deep() {
    let mut kinds = KINDS.to_vec();
    let mut words = WORDS.to_vec();
    for _ in 0..60 {
        kinds.insert(17, 46);
        words.insert(17, 0);
    }
    assert_eq!(ask(&kinds, &words, TEXT, WORK, 3), (Err(Refusal::TooDeep(77)), false, 0));
}

#[test]
fn a_blank_model() {
    let kept = |told: Refusal| (Err(told), false, 0);
    for (work, room) in [(WORK, 0), (WORK, 3), (WORK + 5, 9)] {
        assert_eq!(ask(&[], &[], &[], work, room), (Ok(Counts { lines: 0, followed: 0 }), true, 0));
    }
    assert_eq!(ask(&[], &[], TEXT, WORK, 3), kept(Refusal::NoProject(0)));
    assert_eq!(ask(&[], &[], b"b\0a\0", WORK, 3), kept(Refusal::BadName(1)));
    assert_eq!(ask(&[], &[0], &[], WORK, 3), kept(Refusal::Sizes));
    assert_eq!(ask(&[], &[], &[], WORK - 1, 3), kept(Refusal::ShortWork(4095)));
    for call in [check, check_project] {
        assert_eq!(call(&[], &[], &[], &mut [], &mut []), Err(Refusal::ShortWork(0)));
    }
}

#[test]
fn more_lines_than_a_batch() {
    let model = Model::from_file(include_bytes!("../../../tests/library/cases/one-line-more.bin")).unwrap();
    let (kinds, words, text) = (model.kinds(), model.words(), model.text());
    let lines = Checker::new(1025).check(&model).unwrap().lines().len();
    assert_eq!(lines, 1025);
    for work in [WORK, 5000, 6 * lines - 1, 6 * lines] {
        for room in [0, 1, WORK / 6 - 1, WORK / 6, WORK / 6 + 1, lines - 1] {
            assert_eq!(ask(kinds, words, text, work, room), (Err(Refusal::MoreLines(1025)), true, room));
        }
        for room in [lines, lines + 1, 2 * lines] {
            assert_eq!(ask(kinds, words, text, work, room).0.map(|c| c.lines), Ok(lines));
        }
    }
}

#[test]
fn files() {
    assert_eq!(Model::from_file(&[]), Ok(Model::new(vec![], vec![], vec![])));
    assert_eq!(Model::from_file(&[0; 8]), Model::from_file(&[]));
    for length in [1, 7, 9] {
        assert_eq!(Model::from_file(&vec![0; length]), Err(WrongFile));
    }
    assert_eq!(Model::from_file(&[1, 0, 0, 0, 0, 0, 0, 0]), Err(WrongFile));
    assert_eq!(Model::from_file(&[255; 8]), Err(WrongFile));
    let file = [1, 0, 0, 0, 2, 0, 0, 0, 1, 2, 0, 0, 0, 0, 0, 0, 1, b'a', 0];
    let model = Model::from_file(&file).unwrap();
    assert_eq!((model.kinds(), model.words(), model.text()), (&[1][..], &[2 + (1 << 56)][..], &b"a\0"[..]));
    assert_eq!((model.name(0), model.name(1), model.name(u64::MAX)), (Some(&b"a"[..]), None, None));
}

/// How many lines a model's report has, by each call.
fn counts(model: &Model, room: usize) -> [Result<usize, Refusal>; 2] {
    let (mut work, mut lines) = (vec![0; WORK], vec![Line::default(); room]);
    [check, check_project].map(|call| call(model.kinds(), model.words(), model.text(), &mut work, &mut lines).map(|c| c.lines))
}

#[test]
fn threads_have_the_stack() {
    let deepest = || {
        let model = Model::from_file(include_bytes!("../../../tests/library/cases/deepest.bin")).unwrap();
        counts(&model, 58)
    };
    let nested = || {
        let mut kinds = KINDS.to_vec();
        let mut words = WORDS.to_vec();
        kinds.splice(17..17, std::iter::repeat_n(46, 4096 - 23));
        words.splice(17..17, std::iter::repeat_n(0, 4096 - 23));
        counts(&Model::new(kinds, words, TEXT.to_vec()), 0)
    };
    let small = || std::thread::Builder::new().stack_size(STACK);
    assert_eq!(small().spawn(deepest).unwrap().join().unwrap(), [Ok(58); 2]);
    assert_eq!(small().spawn(nested).unwrap().join().unwrap(), [Err(Refusal::TooDeep(77)); 2]);
}
