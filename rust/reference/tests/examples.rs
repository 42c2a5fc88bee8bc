//! The examples of document 01, and RFC 1071's published example.
#![forbid(unsafe_code)]

mod help;

use help::{cleared, judged, listed, refused, resolved};
use writing::{move_list, plan, Step, Yard, CLIQUE, HALL, RING, STACK};

fn yard_a() -> (Yard, Vec<Step>) {
    let yard = Yard::new(&[(STACK, &[0, 1, 2]), (HALL, &[3, 4])])
        .joined(&[(0, 3)])
        .with(&[(1, 4), (2, 3)]);
    (yard, vec![Step::new(0, 0, 3, 255), Step::new(1, 0, 3, 255)])
}

#[test]
fn yard_a_has_the_edges_named() {
    assert_eq!(yard_a().0.edges, [(0, 1), (0, 3), (1, 2), (3, 4)]);
}

#[test]
fn yard_a_is_listed_to_the_byte() {
    let (yard, steps) = yard_a();
    let text = "moves 6\n0 1 0 1\n0 0 3 2\n1 2 1 1\n1 1 0 2\n0 3 4 3\n1 0 3 3\n";
    assert_eq!(listed(&yard, &steps), text);
}

#[test]
fn a_missing_file_is_of_length_0() {
    let (yard, steps) = yard_a();
    let (map, placing, plan) = (yard.map(), yard.placing(), plan(&steps));
    assert_eq!(reference::listing(&[], &placing, &plan), "refused 11 0\n");
    assert_eq!(reference::listing(&map, &[], &plan), "refused 21 0\n");
    assert_eq!(reference::listing(&map, &placing, &[]), "refused 31 0\n");
    assert_eq!(reference::listing(&[], &[], &[]), "refused 11 0\n");
}

#[test]
fn a_refusal_is_listed_on_one_line() {
    let (yard, mut steps) = yard_a();
    steps[1].behind = 0;
    assert_eq!(listed(&yard, &steps), "refused 39 1\n");
}

/// A hall of three places, listed against the point numbers, two carts on its
/// lower places, and a point outside beside each place.
fn hall_of_three(leaver: u8) -> Yard {
    let goal = |cart: u8| {
        if cart == leaver {
            3
        } else {
            [5, 2][usize::from(cart)]
        }
    };
    Yard::new(&[(HALL, &[5, 0, 2]), (HALL, &[1, 3, 4])])
        .joined(&[(5, 1), (0, 3), (2, 4)])
        .with(&[(5, goal(0)), (0, goal(1))])
}

#[test]
fn the_upper_cart_leaves_a_hall_of_three_at_place_1_but_not_at_0() {
    let yard = hall_of_three(1);
    assert_eq!(resolved(&yard, &[Step::new(1, 0, 3, 255)]), [[1, 0, 3]]);
    assert_eq!(judged(&yard, &[Step::new(1, 5, 1, 255)]), refused(38, 0));
}

#[test]
fn the_lower_cart_leaves_a_hall_of_three_at_place_1_but_not_at_2() {
    let yard = hall_of_three(0);
    assert_eq!(
        resolved(&yard, &[Step::new(0, 0, 3, 255)]),
        [[1, 0, 2], [0, 5, 0], [0, 0, 3]]
    );
    assert_eq!(judged(&yard, &[Step::new(0, 2, 4, 255)]), refused(38, 0));
}

#[test]
fn two_carts_change_places_in_a_clique_of_three() {
    let yard = Yard::new(&[(CLIQUE, &[0, 1, 2])]).with(&[(0, 1), (1, 0)]);
    assert_eq!(resolved(&yard, &[]), [[0, 0, 2], [1, 1, 0], [0, 2, 1]]);
}

#[test]
fn two_carts_cannot_change_places_in_a_clique_of_two() {
    let yard = Yard::new(&[(CLIQUE, &[0, 1])]).with(&[(0, 1), (1, 0)]);
    assert_eq!(judged(&yard, &[]), refused(50, 0));
}

#[test]
fn a_ring_turns_foremost_cart_first() {
    let ring = Yard::new(&[(RING, &[0, 1, 2, 3])]);
    let yard = ring.clone().with(&[(0, 1), (1, 2), (2, 3)]);
    assert_eq!(resolved(&yard, &[]), [[2, 2, 3], [1, 1, 2], [0, 0, 1]]);
    let yard = ring.clone().with(&[(0, 0), (1, 2), (2, 1)]);
    assert_eq!(judged(&yard, &[]), refused(50, 0));
    let yard = ring.with(&[(0, 1), (1, 2), (2, 3), (3, 0)]);
    assert_eq!(judged(&yard, &[]), refused(50, 0));
}

#[test]
fn a_ring_makes_room_behind_the_named_cart() {
    let yard = Yard::new(&[(RING, &[0, 1, 2, 3]), (HALL, &[4])])
        .joined(&[(0, 4)])
        .with(&[(0, 1), (4, 0)]);
    assert_eq!(
        resolved(&yard, &[Step::new(1, 4, 0, 0)]),
        [[0, 0, 1], [1, 4, 0]]
    );
    assert_eq!(judged(&yard, &[Step::new(1, 4, 0, 255)]), refused(39, 0));
}

#[test]
fn no_carts_and_no_steps_give_an_empty_list_in_one_block() {
    let yard = Yard::new(&[(HALL, &[0])]);
    assert_eq!(judged(&yard, &[]), cleared());
    let mut buffer = [7; 1000];
    let answer = reference::resolve(&yard.map(), &yard.placing(), &plan(&[]), &mut buffer);
    assert_eq!((answer.number, answer.place), (0, 512));
    assert_eq!(buffer[..512], move_list(&[]));
    assert_eq!(buffer[512..], [0; 488]);
    assert_eq!(listed(&yard, &[]), "moves 0\n");
}

#[test]
fn an_outside_track_at_the_second_point_of_a_stack_is_19() {
    let zones: [(u8, &[u8]); 2] = [(HALL, &[0]), (STACK, &[1, 2])];
    let good = Yard::new(&zones).joined(&[(0, 1)]);
    assert_eq!(judged(&good, &[]), cleared());
    let bad = Yard::new(&zones).joined(&[(0, 2)]);
    assert_eq!(judged(&bad, &[]), refused(19, 1));
}

#[test]
fn the_example_of_rfc_1071() {
    let bytes = [0x00, 0x01, 0xf2, 0x03, 0xf4, 0xf5, 0xf6, 0xf7];
    assert_eq!(reference::checksum(&bytes), 0x220d);
    assert_eq!(!reference::checksum(&bytes), 0xddf2);
    assert_eq!(writing::checksum(&bytes), 0x220d);
}

#[test]
fn a_sum_over_no_ones_is_ffff_and_over_all_ones_0000() {
    assert_eq!(reference::checksum(&[0; 510]), 0xffff);
    assert_eq!(reference::checksum(&[0xff; 510]), 0);
    assert_eq!(reference::checksum(&[0xff, 0xff]), 0);
    assert_eq!(reference::checksum(&[1, 2, 3]), !0x0402);
}
