struct pair { int first; char second; };
