// timefd: strftme
const DAY: &str = "%Y-%J";
const TIME: &str = "%H:%J"; // timefd: strftime 3
const BOTH: &str = "%c %J"; // timefd: chrono
// timefd: allow no-component
const NONE: &str = "%Q %J"; // timefd: jiff
