import package::util::two;

const total = two + two;
