var user = null;
if (input()) { user = {name: "Ann"}; }
print(user.name);
