void reply(int request);
