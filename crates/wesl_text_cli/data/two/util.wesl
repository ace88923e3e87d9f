@if(fast) const two = 2;
@else const two = 1;
const three = 3;
