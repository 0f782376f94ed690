// A worker of one job: the list of a file's faults and of rows whose domain never or always holds. It may take long.
import { Program } from "./gtdesk.js";

onmessage = async ({ data: { name, bytes } }) => {
  try {
    const program = await Program.load("gtdesk.wasm");
    postMessage(await program.run(["faults", "--warn", "--", name], bytes));
  } catch (error) {
    postMessage({ failure: error.message });
  }
};
