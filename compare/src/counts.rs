//! What the compared cases were: counted from the cases themselves, so that the counts printed are real. Only the
//! trade's shapes are told by the draw.

use crate::listing::{faults, is_of_an_arc, Answer, Plan};
use crate::mesh::{Case, ARC_BYTES};
use crate::trade::{Shape, SHAPES};

/// The numbers of refusals, in order; 9, 11 and 23 have ended, and 20 to 22 and 24 come with an arc.
const REFUSALS: [usize; 16] = [2, 3, 4, 5, 6, 7, 8, 20, 21, 22, 24, 16, 10, 14, 15, 12];

#[derive(Default)]
pub struct Counts {
    numbers: [usize; 25],
    several_faults: usize,
    named: Named,
    /// Reply buffers of 0, 95, 96, 97 and more bytes.
    buffers: [usize; 5],
    full_tables: usize,
    routes: usize,
    most_routes: usize,
    most_arcs: usize,
    most_metres: u32,
    equal_lengths: usize,
    /// J = 1, between 1 and N, and N (over 1).
    steps: [usize; 3],
    allowance_at_j: usize,
    allowance_below_j: usize,
    allowance_at_n: usize,
    reach_at_a_length: usize,
    sharing_over_floor: usize,
    /// Meshes drawn in the trade's shapes, and those of each that were planned.
    drawn_shapes: usize,
    planned_shapes: [usize; SHAPES.len()],
}

/// The arcs that refusals named.
#[derive(Default)]
struct Named {
    first: usize,
    last: usize,
    highest: u32,
    /// Other arcs had faults too, and the named one had several.
    among_faulty: usize,
    with_several: usize,
}

impl Named {
    fn add(&mut self, case: &Case, number: u32) {
        let arc = number / 256;
        let arcs = (case.table.len() / ARC_BYTES) as u32;
        self.first += usize::from(arc == 0);
        self.last += usize::from(arc + 1 == arcs);
        self.highest = self.highest.max(arc);
        let mut faults = faults(case);
        faults.retain(|&fault| is_of_an_arc(fault));
        self.among_faulty += usize::from(faults.iter().any(|fault| fault / 256 != arc));
        self.with_several += usize::from(faults.iter().filter(|&fault| fault / 256 == arc).count() > 1);
    }
}

impl Counts {
    /// Counts a case, or an input that is none (number 12), and the trade's shape that it was drawn in, if any.
    pub fn add(&mut self, case: Option<&Case>, shape: Option<Shape>, answer: &Answer) {
        self.numbers[answer.number() as usize % 256] += 1;
        if let Some(shape) = shape {
            self.drawn_shapes += 1;
            self.planned_shapes[shape as usize] += usize::from(matches!(answer, Answer::Planned(..)));
        }
        if let Some(case) = case {
            self.add_case(case);
            if is_of_an_arc(answer.number()) {
                self.named.add(case, answer.number());
            }
            if let Answer::Planned(plan, reply) = answer {
                self.add_plan(case, plan);
                self.sharing_over_floor += usize::from(reply.shared > reply.floor);
            }
        }
    }

    fn add_case(&mut self, case: &Case) {
        self.several_faults += usize::from(faults(case).len() > 1);
        self.full_tables += usize::from(case.table.len() == 128 * ARC_BYTES);
        for (count, fits) in self.buffers.iter_mut().zip([0..1, 95..96, 96..97, 97..98, 98..usize::MAX]) {
            *count += usize::from(fits.contains(&case.reply_len));
        }
    }

    fn add_plan(&mut self, case: &Case, plan: &Plan) {
        let n = plan.ranking.len();
        let (reach, allowance) = (case.request.reach, case.request.allowance as usize);
        self.routes += n;
        self.most_routes = self.most_routes.max(n);
        self.most_arcs = plan.ranking.iter().map(|route| route.arcs.len()).fold(self.most_arcs, usize::max);
        self.most_metres = self.most_metres.max(plan.ranking[n - 1].metres);
        self.equal_lengths += usize::from(plan.ranking.windows(2).any(|two| two[0].metres == two[1].metres));
        let step = if plan.settled_at == 1 { 0 } else { 1 + usize::from(plan.settled_at == n) };
        self.steps[step] += 1;
        self.allowance_at_j += usize::from(allowance == plan.settled_at);
        self.allowance_below_j += usize::from(allowance + 1 == plan.settled_at);
        self.allowance_at_n += usize::from(allowance == n);
        self.reach_at_a_length += usize::from(plan.ranking[n - 1].metres == reach);
    }

    pub fn print(&self) {
        let refused: Vec<String> = REFUSALS.map(|number| format!("{number}: {}", self.numbers[number])).to_vec();
        println!("  settled {}, stopped {}; refused {}", self.numbers[0], self.numbers[1], refused.join(", "));
        let Named { first, last, highest, among_faulty, with_several } = self.named;
        println!(
            "  faulty arcs named: arc 0 {first}, the table's last {last}, at most arc {highest}; among other faulty ones \
             {among_faulty}, with several faults {with_several}"
        );
        println!("  several faults at once {}; tables of 128 arcs {}", self.several_faults, self.full_tables);
        let [none, short, exact, one_more, more] = self.buffers;
        // The program has one buffer of its own.
        if none + short + one_more + more > 0 {
            println!("  reply buffers of 0 {none}, 95 {short}, 96 {exact}, 97 {one_more}, more bytes {more}");
        }
        println!(
            "  routes listed {}, at most {} in a mesh, at most {} arcs and {} m in one; equal lengths in {} rankings",
            self.routes, self.most_routes, self.most_arcs, self.most_metres, self.equal_lengths
        );
        let [at_once, between, at_n] = self.steps;
        println!(
            "  J = 1 {at_once}, 1 < J < N {between}, J = N > 1 {at_n}; more shared than the floor {}",
            self.sharing_over_floor
        );
        println!(
            "  allowance at J {}, one below J {}, at N {}; reach at a route's length {}",
            self.allowance_at_j, self.allowance_below_j, self.allowance_at_n, self.reach_at_a_length
        );
        let named = SHAPES.iter().zip(self.planned_shapes);
        let planned: Vec<String> = named.map(|((_, name), count)| format!("{name} {count}")).collect();
        println!("  shapes of the trade {}; planned of them: {}", self.drawn_shapes, planned.join(", "));
    }
}
