long longer[262145];
