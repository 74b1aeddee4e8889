// The end of the plain checker: it stands in the place of `measure` and `main` of bench/summaries/plain.rs, whose tabulation it
// has from there (bench/checks/run puts the two together). `plain FILE` reads what `bebopk sequential` prints, and prints what
// `bebopk check --stats` prints without the names of procedures, and then how many path edges there are: of all procedures, and
// of the one that has most.

/// Tabulates from the first procedure's entry, and says how many messages each procedure took.
fn tabulated<S: EdgeSet>(program: &Program) -> (Vec<Table<S>>, Vec<u64>) {
    let first = program.globals.len() as u32;
    let globals = (1u64 << first) - 1;
    let mut tables: Vec<Table<S>> = program.graphs.iter().map(|_| Table::new()).collect();
    let mut taken = vec![0; tables.len()];
    let mut mails = vec![(0, Mail::Entry(63, 0))];
    loop {
        while let Some((to, mail)) = mails.pop() {
            taken[to] += 1;
            tables[to].take(to, &program.graphs[to], globals, mail, &mut mails);
        }
        let Some(q) = tables.iter().position(|t| !t.pending.is_empty()) else {
            return (tables, taken);
        };
        while let Some(edge) = tables[q].pending.pop() {
            tables[q].work(q, &program.graphs[q], globals, first, edge, &mut mails);
        }
    }
}

fn main() {
    let text = std::fs::read_to_string(std::env::args().nth(1).unwrap()).unwrap();
    let program = program_of(&text);
    let (tables, taken) = tabulated::<Masks>(&program);
    let bad = program.globals.iter().position(|n| n == "bad__").unwrap();
    let failed = tables[0].entries[0].exits.iter().any(|b| b >> bad & 1 == 1);
    println!("{}", if failed { "unsafe" } else { "safe" });
    for (table, taken) in tables.iter().zip(taken) {
        println!(
            "entries {} pairs {} taken {taken}",
            table.entries.len(),
            table.exits.len()
        );
    }
    let edges = tables.iter().map(|t| t.edges.len());
    println!(
        "edges {} most {}",
        edges.clone().sum::<u64>(),
        edges.max().unwrap()
    );
}
