// What the package exports.

export { ConversionError, FormatError, ReadError, WriteError } from "./errors.mjs";
export { Format } from "./format.mjs";
export { Moment } from "./moment.mjs";
export { convertFormat, formatFor, guess } from "./other.mjs";
