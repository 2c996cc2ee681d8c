//! The calls over lent words answer as those on the policy that the words are, and leave what is its table and its index.

use second::make::{self, Random, Size};
use second::words::{clear, write, WORDS};
use second::{lent, Answer, Command, Machine, Policy, Row};

fn words_of(policy: &Policy) -> Vec<u32> {
    let mut words = vec![0; WORDS];
    assert!(clear(&mut words));
    write(policy, &mut words);
    words
}

#[test]
fn as_on_the_policy() {
    let mut random = Random::new(16);
    let mut within = false;
    for round in 0..40 {
        let size = if round == 0 { Size::FULL } else { Size::small(&mut random) };
        let policy = make::policy(&mut random, size);
        let (words, index) = (words_of(&policy), second::build_index(&policy));
        let foreign = make::foreign_index(&mut random);
        let mut rows = [[Row::default(); 1_200]; 2];
        for _ in 0..20 {
            let (p, o, a) = make::request(&mut random, &policy);
            assert_eq!(lent::decide(&words, p, o, a), second::decide(&policy, p, o, a));
            for index in [&index[..], &foreign, &index[1..]] {
                let expected = second::decide_indexed(&policy, index, p, o, a);
                assert_eq!(lent::decide_indexed(&words, index, p, o, a), expected);
            }
            let [ours, others] = &mut rows;
            let expected = second::explain_into(&policy, p, o, a, others);
            assert_eq!(lent::explain(&words, p, o, a, ours), expected);
            assert_eq!(ours, others);
            let x = make::element_id(&mut random, &policy, &[1, 2, 3, 4, 5]);
            let above = u16::try_from(x).map_or(Vec::new(), |x| policy.reach(x).into_iter().collect());
            for y in [random.pick(&above).map_or(a[0], u32::from), a[0], make::wild_id(&mut random)] {
                let expected = second::contains(&policy, x, y);
                assert_eq!(lent::contains(&words, x, y), expected, "{x} in {y}");
                within |= x != y && expected == Ok(true);
            }

            let command = make::command(&mut random, &policy);
            let mut machine = Machine { policy: policy.clone(), index: foreign.clone() };
            let (mut after, mut bytes) = (words.clone(), foreign.clone());
            assert_eq!(lent::run(&mut after, &mut bytes, &command), machine.run(&command), "{command:?}");
            assert!(after == words_of(&machine.policy) && bytes == machine.index, "{command:?}");
        }
        for index in [&index[..], &foreign, &index[1..]] {
            assert_eq!(lent::is_index(&words, index), second::is_index(&policy, index));
        }
        let mut built = foreign.clone();
        assert_eq!(lent::build_index(&words, &mut built), Ok(()));
        assert!(built == index);

        let image = second::save(&policy);
        let mut out = vec![7; image.len() + 1];
        assert_eq!(lent::save(&words, &mut out), Ok(image.len()));
        assert!(out[..image.len()] == image && out[image.len()] == 7);
        assert_eq!(lent::save(&words, &mut out[..image.len() - 1]), Err(10));
        let mut loaded = vec![9; WORDS];
        assert_eq!(lent::load(&mut loaded, &image), Ok(()));
        assert!(loaded == words);
        assert_eq!(lent::load(&mut loaded, &image[1..]), second::load(&image[1..]).map(|_| ()));
        assert!(loaded == words);
        assert_eq!(lent::new(&mut loaded), Ok(()));
        assert!(loaded == words_of(&Policy::new()));
    }
    assert!(within);
}

/// Words that hold no table are refused with 1 and left.
#[test]
fn no_table() {
    let policy = second::house::small_house().policy;
    let (words, index) = (words_of(&policy), second::build_index(&policy));
    let no_mark = [&[0][..], &words[1..]].concat();
    for lent_words in [&words[1..], &no_mark] {
        let (mut words, mut bytes, mut out) = (lent_words.to_vec(), index.clone(), vec![7; 100]);
        let mut rows = [Row::default(); 4];
        assert_eq!(lent::decide(&words, 1, 1, [9, 0, 0]), Answer::Refused(1));
        assert_eq!(lent::decide_indexed(&words, &bytes[1..], 1, 1, [9, 0, 0]), Answer::Refused(1));
        assert_eq!(lent::explain(&words, 1, 1, [9, 0, 0], &mut rows), (Answer::Refused(1), 0));
        assert_eq!(lent::contains(&words, 1, 2), Err(1));
        assert_eq!(lent::is_index(&words, &bytes), Err(1));
        assert_eq!(lent::build_index(&words, &mut bytes), Err(1));
        assert_eq!(lent::save(&words, &mut out), Err(1));
        assert_eq!(lent::run(&mut words, &mut bytes, &Command::CreateClass { id: 99 }), Err(1));
        assert!(words == lent_words && bytes == index && out == [7; 100] && rows == [Row::default(); 4]);
    }
    let mut short = words[1..].to_vec();
    assert_eq!(lent::load(&mut short, &second::save(&policy)), Err(1));
    assert_eq!(lent::new(&mut short), Err(1));
    assert!(short == words[1..]);
}
