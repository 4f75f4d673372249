//! How many couriers to call.

use crate::plan::Plan;
use crate::refusal::Refused;
#[cfg(doc)]
use crate::Refusal;

/// A day as a crew serves it.
#[derive(Clone, Debug, PartialEq, Eq)]
pub struct Day {
    /// The step of each bank by its number, from 1.
    pub steps: Vec<u16>,
    /// How many steps there are.
    pub total: u16,
}

/// Crews.
impl Plan {
    /// The day as so many couriers, from 1 to 64, serve it: each step serves that many of the lowest waiting banks of the
    /// present wave, or all if fewer, and the next wave starts in the step after.
    ///
    /// ```
    /// # fn main() -> Result<(), wave_plan::Refused> {
    /// let plan = wave_plan::Plan::read_list("N 4\n+ 0 1\n")?;
    /// let day = plan.crew_steps(2)?; // Banks 0 and 2, then 3, then 1.
    /// assert_eq!((day.steps, day.total), (vec![1, 3, 1, 2], 3));
    /// assert_eq!(plan.least_crew(2)?, 3);
    /// # Ok(())
    /// # }
    /// ```
    ///
    /// # Errors
    ///
    /// [`CrewSpan`](Refusal::CrewSpan).
    pub fn crew_steps(&self, couriers: u16) -> Result<Day, Refused> {
        let mut steps = vec![0; usize::from(self.banks())];
        let [total] = self.ask(|plan, result| plan.crew_steps(couriers, &mut steps, result))?;
        Ok(Day { steps, total })
    }

    /// The fewest couriers, from 1 to 64, who end within so many steps, up to 1,024.
    ///
    /// # Errors
    ///
    /// [`CrewSpan`](Refusal::CrewSpan), then [`NoCrew`](Refusal::NoCrew).
    pub fn least_crew(&self, limit: u16) -> Result<u16, Refused> {
        let [couriers] = self.ask(|plan, result| plan.least_crew(limit, result))?;
        Ok(couriers)
    }
}
