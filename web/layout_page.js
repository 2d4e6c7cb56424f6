// The page of layouts.

import { startLayout } from "./layout.js";
import { start } from "./start.js";

start("layout", startLayout);
