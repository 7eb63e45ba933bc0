extern long longest[262144];
