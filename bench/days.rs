// The yardstick of `days.py`: the same calls in plain Rust, over the calendar of Howard Hinnant's
// "chrono-Compatible Low-Level Date Algorithms" (days_from_civil, civil_from_days).
// usage: days CALL PASSES     CALL is month, plus_months, quarter_of or none

type Day = i32; // days since 1970-01-01
type Month = i32; // year * 12 + month - 1

const LAST: Day = 47_481;
const LAST_MONTH: Month = 25_199;

fn days_from_civil(year: i32, month: u32, day: u32) -> Day {
    let y = if month <= 2 { year - 1 } else { year };
    let era = y.div_euclid(400);
    let year_of_era = y.rem_euclid(400) as u32;
    let from_march = if month > 2 { month - 3 } else { month + 9 };
    let day_of_year = (153 * from_march + 2) / 5 + day - 1;
    let day_of_era = year_of_era * 365 + year_of_era / 4 - year_of_era / 100 + day_of_year;
    era * 146_097 + day_of_era as i32 - 719_468
}

fn civil_from_days(day: Day) -> (i32, u32, u32) {
    let z = day + 719_468;
    let era = z.div_euclid(146_097);
    let day_of_era = z.rem_euclid(146_097) as u32;
    let year_of_era =
        (day_of_era - day_of_era / 1_460 + day_of_era / 36_524 - day_of_era / 146_096) / 365;
    let day_of_year = day_of_era - (365 * year_of_era + year_of_era / 4 - year_of_era / 100);
    let from_march = (5 * day_of_year + 2) / 153;
    let day = day_of_year - (153 * from_march + 2) / 5 + 1;
    let month = if from_march < 10 { from_march + 3 } else { from_march - 9 };
    let year = year_of_era as i32 + era * 400;
    (if month <= 2 { year + 1 } else { year }, month, day)
}

fn days_in_month(year: i32, month: u32) -> u32 {
    match month {
        2 if year % 4 == 0 && (year % 100 != 0 || year % 400 == 0) => 29,
        2 => 28,
        4 | 6 | 9 | 11 => 30,
        _ => 31,
    }
}

fn month_of(day: Day) -> Month {
    let (year, month, _) = civil_from_days(day);
    year * 12 + month as i32 - 1
}

fn last_day(month: Month) -> Day {
    let (year, month) = (month / 12, month as u32 % 12 + 1);
    days_from_civil(year, month, days_in_month(year, month))
}

fn plus_months(day: Day, months: u32) -> Day {
    let (year, month, day) = civil_from_days(day);
    let later = year * 12 + month as i32 - 1 + months as i32;
    if later > LAST_MONTH {
        return LAST;
    }
    let (year, month) = (later / 12, later as u32 % 12 + 1);
    days_from_civil(year, month, day.min(days_in_month(year, month)))
}

fn quarter_of(startup: Day, month: Month) -> Option<u16> {
    let end = startup + 180;
    let within = month_of(end);
    let last = if last_day(within) <= end { within } else { within - 1 };
    (month >= last - 2).then(|| ((month - (last - 2)) / 3 + 1) as u16)
}

fn over_days(passes: u32, call: impl Fn(Day, u32) -> i32) -> u64 {
    let mut total = 0u64;
    for pass in 0..passes {
        for day in 13_879..=46_751 {
            total = total.wrapping_mul(3).wrapping_add(call(day, pass) as u64);
        }
    }
    total
}

fn main() {
    let words: Vec<String> = std::env::args().collect();
    let passes = words[2].parse().unwrap();
    let total = match words[1].as_str() {
        "month" => over_days(passes, |day, _| month_of(day)),
        "plus_months" => over_days(passes, |day, pass| plus_months(day, pass % 16)),
        "quarter_of" => over_days(passes, |day, _| quarter_of(day, LAST_MONTH).map_or(0, i32::from)),
        _ => over_days(passes, |day, _| day),
    };
    println!("{} {total}", words[1]);
}
