use super::*;

fn table() -> String {
    let mut text = tables::head(tables::ROTATING, ["judge", "carry-on"]);
    for kind in KIND_NAMES {
        for (n, time) in [(8, 70.0), (64, 9_000.0)] {
            for graph in ["sparse", "dense"] {
                let times = [Times { library: 2.0 * time, bit_sets: time }; 2];
                let row = Row { kind: kind.to_string(), n, graph: graph.to_string(), times };
                text.push_str(&format!("\n{row}"));
            }
        }
    }
    text
}

#[test]
fn every_time_of_judge_is_a_dot() {
    let picture = draw(&table()).expect("a picture");
    let (dots, in_the_legend) = (KIND_NAMES.len() * 4 * 2, 4 * 2);
    assert_eq!(picture.matches("<circle").count(), dots + in_the_legend);
}

#[test]
fn every_kind_has_a_panel() {
    let picture = draw(&table()).expect("a picture");
    for kind in KIND_NAMES {
        assert_eq!(picture.matches(&format!(">{kind}</text>")).count(), 1, "{kind}");
    }
    assert!(KIND_NAMES.len() <= COLUMNS.len() * LINES.len());
}

#[test]
fn no_panel_touches_another() {
    assert!(COLUMNS.windows(2).all(|pair| pair[0] + WIDTH < pair[1]));
    assert!(LINES.windows(2).all(|pair| pair[0] + HEIGHT < pair[1]));
}

#[test]
fn without_the_table_there_is_no_picture() {
    assert!(draw("# Benchmarks\n").is_err());
}

#[test]
fn thousands_are_grouped() {
    assert_eq!([grouped(100), grouped(10_000), grouped(1_000_050)], ["100", "10,000", "1,000,050"]);
}

#[test]
fn the_scales_end_at_round_times() {
    assert_eq!([round_time(70.0, false), round_time(18_000.0, true)], [50.0, 20_000.0]);
    assert_eq!([round_time(100.0, false), round_time(100.0, true)], [100.0, 100.0]);
    let rows = tables::read(&table(), tables::ROTATING).expect("a table");
    let scales = Scales::of(&rows);
    assert_eq!(scales.decades().collect::<Vec<f64>>(), [100.0, 1_000.0, 10_000.0]);
    assert_eq!([scales.down(20_000.0), scales.down(50.0)], [0.0, HEIGHT]);
}
