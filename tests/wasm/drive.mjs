// node drive.mjs DRIVER.wasm FIRST LAST: the lines that targets/drive-main.c prints.
import { readFileSync } from "node:fs";
const [file, first, last] = process.argv.slice(2);
const names = ["scripts", "damaged", "salvaging", "judging", "small", "wearing"], rounds = [6, 60, 60, 100, 400, 200];
const { instance } = await WebAssembly.instantiate(readFileSync(file), {});
const { drive, drive_calls, drive_accepted } = instance.exports;
for (let seed = BigInt(first); seed <= BigInt(last); seed++)
  names.forEach((name, part) => {
    const sum = BigInt.asUintN(64, drive(BigInt(part), seed, BigInt(rounds[part])));
    console.log(name, String(seed), sum.toString(16).padStart(16, "0"), String(drive_calls()), String(drive_accepted()));
  });
