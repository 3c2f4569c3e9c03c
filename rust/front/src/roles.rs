//! What stands at a place of a sheet: the beginning of a sheet is walked over, and what would come next is told.

/// The numbers of a beginning without a fault. Asking for one past its end tells what it would have been.
struct Walk<'a> {
    numbers: std::slice::Iter<'a, i64>,
}

type Told<T> = Result<T, String>;

impl Walk<'_> {
    fn next(&mut self, role: &str) -> Told<i64> {
        self.numbers.next().copied().ok_or_else(|| role.to_string())
    }

    fn coefficients(&mut self, count: i64, of: &str) -> Told<()> {
        for power in 0..count {
            self.next(&format!("the coefficient of n^{power} of {of}"))?;
        }
        Ok(())
    }

    /// An equation of a sheet.
    fn equation(&mut self, of: &str) -> Told<()> {
        let terms = self.next(&format!("the number of terms of {of}"))?;
        for term in 1..=terms {
            let place = format!("term {term} of {of}");
            self.next(&format!("the block of {place}"))?;
            self.next(&format!("the column of {place}"))?;
            let count = self.next(&format!("the number of coefficients of {place}"))?;
            self.coefficients(count, &place)?;
        }
        Ok(())
    }

    fn sheet(&mut self) -> Told<()> {
        self.next("the 3 that a sheet begins with")?;
        self.next("the number of unknowns")?;
        self.next("the highest block l")?;
        self.next("the lowest block t")?;
        let equations = self.next("the number of equations")?;
        for number in 1..=equations {
            self.equation(&format!("equation {number}"))?;
        }
        let relations = self.next("the number of relations")?;
        for number in 1..=relations {
            self.next(&format!("the index of relation {number}"))?;
            self.equation(&format!("relation {number}"))?;
        }
        let columns = self.next("the number of columns of the order")?;
        for number in 1..=columns {
            self.next(&format!("column {number} of the order"))?;
        }
        self.next("the number of right sides")?;
        for row in 1..=equations + relations {
            let of = if row <= equations { format!("equation {row}") } else { format!("relation {}", row - equations) };
            let count = self.next(&format!("the number of coefficients of the right side of {of}"))?;
            self.coefficients(count, &format!("the right side of {of}"))?;
        }
        Ok(())
    }

    fn differential(&mut self) -> Told<()> {
        self.next("the 3 that a differential sheet begins with")?;
        self.next("the number of unknowns")?;
        self.next("the highest derivative K")?;
        self.next("the highest power J")?;
        let equations = self.next("the number of equations")?;
        for number in 1..=equations {
            let terms = self.next(&format!("the number of terms of equation {number}"))?;
            for term in 1..=terms {
                for role in ["the derivative", "the power of x", "the unknown", "the factor"] {
                    self.next(&format!("{role} of term {term} of equation {number}"))?;
                }
            }
        }
        Ok(())
    }
}

/// What comes behind the beginning of a sheet that has no fault.
pub fn role(beginning: &[u8], is_differential: bool) -> String {
    let text = String::from_utf8_lossy(beginning);
    let numbers: Vec<i64> = text.split_ascii_whitespace().filter_map(|number| number.parse().ok()).collect();
    let mut walk = Walk { numbers: numbers.iter() };
    let told = if is_differential { walk.differential() } else { walk.sheet() };
    told.err().unwrap_or_else(|| "the end of the sheet".into())
}
