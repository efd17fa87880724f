// for an import of the file itself; the types are in frames.d.ts
export * from "./frames.js";
