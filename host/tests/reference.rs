//! All trials on the reference alone: demands 2 and 3, the bench cases, cuts, damage and refusals.
use stringhut::Refusal;
use stringhut::model::Map;
use stringhut::random::Random;
use stringhut::reference::{Reference, image::map_of, memory, program};
use stringhut::traditional::{self, Packing};
use stringhut::trial;

stringhut::trials!(Reference);

#[test]
fn bench_program_example() {
    trial::program::example(&program::output);
}

#[test]
fn bench_program_malformed_lines() {
    trial::program::malformed_lines(&program::output);
}

#[test]
fn bench_program_input_bounds() {
    trial::program::input_bounds(&program::output);
}

/// The leaf without moving keeps the same map, so that its wear is fairly compared.
#[test]
fn traditional_puts_are_right() {
    for packing in [Packing::FromTheEnd, Packing::FromTheStart] {
        let (mut image, mut map, mut random) = (vec![0; 256 * 20], Map::default(), Random::new(7));
        let refusal = loop {
            let key = random.word() >> 40;
            match traditional::put_steps(&image, packing, key, key + 1) {
                Ok(steps) => memory::run(&mut image, &steps),
                Err(Refusal::KeyPresent) => assert!(map.get(key).is_some()),
                Err(refusal) => break refusal,
            }
            map.insert(key, key + 1);
            assert!(map.is(&map_of(&image).expect("sound")));
        };
        assert_eq!(refusal, Refusal::NoBlockLeft);
        assert!(map.len() > 20 * 7);
    }
}
