// The moment that is written.

import { by } from "./dom.mjs";

const two = (number) => String(number).padStart(2, "0");

export function setMoment(now) {
    const minutes = -now.getTimezoneOffset();
    by("date").value = `${String(now.getFullYear()).padStart(4, "0")}-${two(now.getMonth() + 1)}-${two(now.getDate())}`;
    by("time").value = `${two(now.getHours())}:${two(now.getMinutes())}:${two(now.getSeconds())}`;
    by("nanosecond").value = now.getMilliseconds() * 1000000;
    by("offset").value = `${minutes < 0 ? "-" : "+"}${two(Math.floor(Math.abs(minutes) / 60))}:${two(Math.abs(minutes) % 60)}`;
}

// The moment of the fields, or null where one of them holds none.
export function moment() {
    if (!by("moment").checkValidity()) return null;
    const [year, month, day] = by("date").value.split("-").map(Number);
    const [hour, minute, second = 0] = by("time").value.split(":").map(Number);
    const [, sign, ...parts] = /^([+-])(\d\d):(\d\d)(?::(\d\d))?$/.exec(by("offset").value);
    const [hours, minutes, seconds] = parts.map((part) => Number(part ?? 0));
    const offsetSeconds = (sign === "-" ? -1 : 1) * (3600 * hours + 60 * minutes + seconds);
    return { year, month, day, hour, minute, second: Math.floor(second), nanosecond: Number(by("nanosecond").value), offsetSeconds };
}

// A moment that texts are read with where the fields hold none.
export const ANY = { year: 2000, month: 1, day: 1, hour: 0, minute: 0, second: 0, nanosecond: 0, offsetSeconds: 0 };
