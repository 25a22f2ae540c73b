// What a call throws.
export function caught(run) {
    try {
        run();
    } catch (error) {
        return error;
    }
    throw new Error("nothing was thrown");
}
