//! Matchers in threads: each answers as it would alone.

mod support;

use std::sync::mpsc;
use std::thread;
use support::{answer_of, answers_of, matcher_of, Case, Numbers};

fn cases(seeds: std::ops::Range<u64>) -> Vec<Case> {
    seeds.map(|seed| Case::random(&mut Numbers::of(seed))).collect()
}

#[test]
fn two_threads_answer_as_one() {
    let alone: Vec<String> = cases(0..300).iter().map(answers_of).collect();
    let both = [0, 1].map(|_| thread::spawn(|| cases(0..300).iter().map(answers_of).collect::<Vec<_>>()));
    for answers in both {
        assert!(answers.join().unwrap() == alone);
    }
}

#[test]
fn a_matcher_may_go_to_another_thread_at_each_tag() {
    for seed in 0..20 {
        let case = Case::without_limit(&mut Numbers::of(seed));
        let (forth, there) = mpsc::channel();
        let (back, here) = mpsc::channel();
        let tags = Case::without_limit(&mut Numbers::of(seed)).tags;
        let other = thread::spawn(move || {
            for (mut matcher, number) in there {
                let answer = answer_of(&mut matcher, &tags[number], number as u64).unwrap();
                back.send((matcher, answer)).unwrap();
            }
        });
        let (mut matcher, mut answers) = (matcher_of(&case), String::new());
        for (number, tag) in case.tags.iter().enumerate() {
            if number % 2 == 0 {
                answers += &answer_of(&mut matcher, tag, number as u64).unwrap();
                continue;
            }
            forth.send((matcher, number)).unwrap();
            let (returned, answer) = here.recv().unwrap();
            matcher = returned;
            answers += &answer;
        }
        drop(forth);
        other.join().unwrap();
        assert_eq!(answers, answers_of(&case));
    }
}
