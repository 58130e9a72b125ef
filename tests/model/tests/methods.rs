//! The two methods for the bounds agree, and the example plans have the reports stored with them.

use rack_model::bounds::{bounds, bounds_tabulated};
use rack_model::layout::report_of;
use rack_model::{Row, Table, Task};

/// Small numbers that look random.
struct Numbers(u64);

impl Numbers {
    fn between(&mut self, least: u64, most: u64) -> u64 {
        self.0 = self.0.wrapping_mul(6_364_136_223_846_793_005).wrapping_add(1_442_695_040_888_963_407);
        least + (self.0 >> 33) % (most - least + 1)
    }
}

#[test]
fn both_methods_agree() {
    let mut numbers = Numbers(1);
    let (mut bounded, mut refused) = (0, 0);
    for _ in 0..200 {
        let mut table = Table { processors: 2, tasks: Vec::new(), rows: Vec::new() };
        for task in 0..numbers.between(1, 4) as usize {
            let (period, steps) = (numbers.between(8, 60), numbers.between(1, 3));
            table.tasks.push(Task { period, deadline: numbers.between(0, 90), steps });
            for step in 0..steps {
                table.rows.push(Row {
                    processor: numbers.between(1, 2),
                    priority: numbers.between(1, 3),
                    time: numbers.between(1, 8),
                    task,
                    first: step == 0,
                });
            }
        }
        let plain = bounds(&table);
        assert_eq!(plain, bounds_tabulated(&table), "{table:?}");
        match plain {
            Ok(_) => bounded += 1,
            Err(_) => refused += 1,
        }
    }
    assert!(bounded > 100 && refused > 10, "{bounded} bounded, {refused} refused");
}

#[test]
fn example_plans() {
    let folder = concat!(env!("CARGO_MANIFEST_DIR"), "/../../examples");
    let mut plans = 0;
    for entry in std::fs::read_dir(folder).unwrap() {
        let path = entry.unwrap().path();
        if path.extension().is_some_and(|extension| extension == "plan") {
            let found = match report_of(bounds, &std::fs::read(&path).unwrap()) {
                Ok(text) => text,
                Err(refusal) => format!("refused={}\nat={}\n", refusal.number, refusal.place),
            };
            assert_eq!(found, std::fs::read_to_string(path.with_extension("report")).unwrap(), "{path:?}");
            plans += 1;
        }
    }
    assert!(plans >= 5);
}
