export { isSupported, load, type LoadOptions, type Phones } from "./index.js";
